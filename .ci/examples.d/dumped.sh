# shellcheck shell=bash
# Volumes are dumped, and made again of their scripts on new ones with as many pages: a dump of these says the same, byte
# for byte, also of a script in transactions. A dump changes nothing, and takes no volume for its output.

# dumps NAME VOLUME SCRIPT [OPTION..]: a dump of the volume ends well and says this script, and the volume stays.
dumps() {
  local name=$1 volume=$2 script=$3
  shift 3
  cp "$volume" before
  wants "$name: a dump $*" 0 "$dump" "$volume" "$@"
  mv said "$script"
  same "$name: the volume" before "$volume"
}
# restores NAME VOLUME SCRIPT..: the scripts are run on a new volume, each statement is answered by ok, and a dump says
# them again.
restores() {
  local name=$1 volume=$2
  shift 2
  rm -f restored.volume
  wants "$name: init" 0 "$ts" restored.volume init $(($(stat -c %s "$volume") / 4096 - 930))
  for piece in "$@"; do
    input=$piece wants "$name: run" 0 "$ts" restored.volume run
    holds "$name: each statement is answered by ok" [ "$(grep -c -v '^ok' said)" -eq 0 ]
    holds "$name: each statement has its reply" [ "$(wc -l < said)" -eq "$(wc -l < "$piece")" ]
  done
  wants "$name: check" 0 "$ts" restored.volume check
  cat "$@" | grep -v -e '^Begin;$' -e '^Commit;$' > whole.script
  wants "$name: a dump of what was restored" 0 "$dump" restored.volume
  same "$name: it says the same" said whole.script
}
# Those that are there, among them windows of rolling sets, and over four thousand series.
volumes=0
for volume in *.volume; do
  "$ts" "$volume" check > /dev/null 2>&1 || continue
  volumes=$((volumes + 1))
  dumps "$volume" "$volume" dumped.script
  restores "$volume" "$volume" dumped.script
  dumps "$volume in transactions" "$volume" grouped.script --transactions
  restores "$volume in transactions" "$volume" grouped.script
  same "$volume in transactions: the same statements" whole.script dumped.script
done
holds "volumes were dumped" [ "$volumes" -ge 20 ]
wants "over four thousand series: dump" 0 "$dump" many_series.volume --definitions
holds "over four thousand series: each is made" [ "$(grep -c '^TSCreate' said)" -gt 4000 ]

# A volume of the old format comes out as one of the newest.
wants "the old format: init" 0 "$ts" first.volume init 8
in_format 1 first.volume
echo "CreateRowType(rd, t datetime, v decimal(18,2));TSContainerCreate(c1, rd, 8);TSCreateIrr('x', c1);
  InsElem('x','2011-01-03 00:00:00',-1.5);" > first.script
input=first.script wants "the old format: run" 0 "$ts" first.volume run
dumps "the old format" first.volume dumped.script
restores "the old format" first.volume dumped.script
holds "the old format: the new volume has the newest" [ "$(od -An -tu1 -j8 -N1 restored.volume)" -eq 2 ]
holds "the old format: the old one stays" [ "$(od -An -tu1 -j8 -N1 first.volume)" -eq 1 ]
rm first.volume first.script

# What has to be written with care: quotes in texts and in a key, 28 digits, NULL, a hidden element, a calendar with the
# pattern inside and one by its name, a regular series with one hidden.
wants "with care: init" 0 "$ts" care.volume init 8
cat > care.script << 'SCRIPT'
CreateRowType(note, t datetime, words varchar(40), size decimal(28,9), small smallint);
CreatePattern(workday, '{1 off,5 on,1 off},day');
CreateCalendar(named, 'startdate(2011-01-02 00:00:00), pattstart(2011-01-02 00:00:00), pattname(workday)');
CreateCalendar(inside, 'startdate(2011-01-01 00:00:00), pattstart(2011-01-01 00:00:00), pattern({1 on},hour)');
TSContainerCreate(notes, note, 8);
TSCreateIrr('it''s', notes);
TSCreate('days', named, '2011-01-03 00:00:00.00000', notes);
TSCreate('hours', inside, '2011-01-01 05:00:00.00000', notes);
InsElem('it''s', '2011-01-01 00:00:00.00001','said ''no'', twice',-1234567890123456789.012345678,null);
InsElem('it''s', '2011-01-01 00:00:00.00002','',0.000000001,-32767);
HideElem('it''s', '2011-01-01 00:00:00.00002');
InsElem('days', '2011-01-03 00:00:00',null,null,null);
InsElem('days', '2011-01-05 00:00:00',';',9999999999999999999.999999999,32767);
HideElem('days', '2011-01-03 00:00:00');
InsElem('hours', '2011-01-01 06:00:00','b',2,1);
SCRIPT
input=care.script wants "with care: run" 0 "$ts" care.volume run
holds "with care: each statement is answered by ok" [ "$(grep -c -v '^ok' said)" -eq 0 ]
cat > wanted << 'SCRIPT'
CreateRowType(note, t datetime, words varchar(40), size decimal(28,9), small smallint);
CreatePattern(workday, '{1 off,5 on,1 off},day');
CreateCalendar(inside, 'startdate(2011-01-01 00:00:00.00000), pattstart(2011-01-01 00:00:00.00000), pattern({1 on},hour)');
CreateCalendar(named, 'startdate(2011-01-02 00:00:00.00000), pattstart(2011-01-02 00:00:00.00000), pattname(workday)');
TSContainerCreate(notes, note, 8);
TSCreate('days', named, '2011-01-03 00:00:00.00000', notes);
TSCreate('hours', inside, '2011-01-01 05:00:00.00000', notes);
TSCreateIrr('it''s', notes);
InsElem('days', '2011-01-03 00:00:00.00000',null,null,null);
HideElem('days', '2011-01-03 00:00:00.00000');
InsElem('days', '2011-01-05 00:00:00.00000',';',9999999999999999999.999999999,32767);
InsElem('hours', '2011-01-01 06:00:00.00000','b',2.000000000,1);
InsElem('it''s', '2011-01-01 00:00:00.00001','said ''no'', twice',-1234567890123456789.012345678,null);
InsElem('it''s', '2011-01-01 00:00:00.00002','',0.000000001,-32767);
HideElem('it''s', '2011-01-01 00:00:00.00002');
SCRIPT
dumps "with care" care.volume care.script
same "with care: what is said" care.script wanted
restores "with care" care.volume care.script

# The definitions alone are a front of it.
wants "definitions alone" 0 "$dump" care.volume --definitions
head -n 8 care.script > wanted
same "definitions alone: what is said" said wanted

# In transactions of 32; there are two of them where there are 33 statements.
dumps "in transactions" care.volume grouped.script --transactions
{
  echo "Begin;"
  cat care.script
  echo "Commit;"
} > wanted
same "in transactions: what is said" grouped.script wanted
wants "definitions in transactions" 0 "$dump" care.volume --transactions --definitions
{
  echo "Begin;"
  head -n 8 care.script
  echo "Commit;"
} > wanted
same "definitions in transactions: what is said" said wanted
wants "33 statements: init" 0 "$ts" thirty_three.volume init 8
{
  echo "CreateRowType(n, t datetime, v smallint);"
  echo "TSContainerCreate(c, n, 8);"
  echo "TSCreateIrr('a', c);"
  for n in $(seq 10 39); do
    echo "InsElem('a', '2011-01-01 00:00:00.000$n',$n);"
  done
} > thirty_three.script
input=thirty_three.script wants "33 statements: run" 0 "$ts" thirty_three.volume run
dumps "33 statements" thirty_three.volume grouped.script --transactions
{
  echo "Begin;"
  head -n 32 thirty_three.script
  printf 'Commit;\nBegin;\n'
  tail -n 1 thirty_three.script
  echo "Commit;"
} > wanted
same "33 statements: what is said" grouped.script wanted
restores "33 statements" thirty_three.volume grouped.script
# A whole transaction has 34 lines: what is cut behind a multiple of them is scripts.
rm -f piece.*
split -l 34 grouped.script piece.
restores "33 statements in two pieces" thirty_three.volume piece.*
rm -f thirty_three.volume thirty_three.script piece.*

# One series with what it stands on: a regular one has a calendar, and this the pattern by whose name it was made.
dumps "a series" care.volume one.script --series days
grep -e '^CreateRowType(' -e '^CreatePattern(' -e '^CreateCalendar(named' -e '^TSContainerCreate(' -e "'days'" care.script > wanted
same "a series: what is said" one.script wanted
restores "a series" care.volume one.script
dumps "a series with the pattern inside" care.volume one.script --series hours
grep -e '^CreateRowType(' -e '^CreateCalendar(inside' -e '^TSContainerCreate(' -e "'hours'" care.script > wanted
same "a series with the pattern inside: what is said" one.script wanted
dumps "an irregular series in transactions" care.volume one.script --series "it's" --transactions
{
  echo "Begin;"
  grep -e '^CreateRowType(' -e '^TSContainerCreate(' -e "'it''s'" care.script
  echo "Commit;"
} > wanted
same "an irregular series in transactions: what is said" one.script wanted
restores "an irregular series in transactions" care.volume one.script
for key in none "its" "it''s" "'it''s'" "days " ""; do
  wants "no series '$key'" 1 "$dump" care.volume --series "$key"
  holds "no series '$key': it is told" grep -q "no series has the key '$key'" complained
  holds "no series '$key': nothing is said" [ ! -s said ]
done

# Pieces that are cut between lines are scripts, each of them.
rm -f piece.*
split -C 400 care.script piece.
restores "in pieces" care.volume piece.*
rm -f piece.*

# What is no store, and what can't be opened. Each line says what to do.
head -c 4096 /dev/zero > zeros.volume
wants "a dump of no store" 6 "$dump" zeros.volume
holds "a dump of no store: the page" grep -q 'bad page 0' complained
holds "a dump of no store: nothing is said" [ ! -s said ]
wants "a dump of no file" 11 "$dump" none.volume
wants "a dump of a folder" 11 "$dump" .
for words in "" "care.volume more" "-x" "--help more" "--definitions" "--definitions care.volume" \
  "care.volume --series" "care.volume --definitions --series days" "care.volume --series days --definitions" \
  "care.volume --series days --series hours" "care.volume --definitions --definitions" \
  "care.volume --transactions --transactions" "--transactions care.volume"; do
  # shellcheck disable=SC2086
  wants "a dump with the words '$words'" 2 "$dump" $words
done
wants "a dump: help" 0 "$dump" --help
wants "a dump: version" 0 "$dump" --version
cp care.volume before
"$dump" care.volume >> care.volume 2> complained
holds "a dump into its own volume is refused" [ $? -eq 11 ]
same "a dump into its own volume" before care.volume
if [ -w /dev/full ]; then
  "$dump" care.volume > /dev/full 2> complained
  holds "a dump that isn't taken" [ $? -eq 4 ]
fi
chmod a-w care.volume
dumps "a volume that can't be written" care.volume again.script
same "a volume that can't be written: what is said" again.script care.script
rm -f care.volume one.script grouped.script restored.volume many_series.volume zeros.volume care.script dumped.script again.script whole.script
