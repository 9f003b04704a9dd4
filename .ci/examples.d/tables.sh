# shellcheck shell=bash
# Tables in and out: from_csv and to_csv.

# A table goes in: a file with quotes, empty fields and bad lines, each of which is named, and all others are there.
# What a Clip of them says comes out as a table again, and that one goes in and comes out as it is.

# taken VOLUME STATEMENTS KEY: a new volume takes the statements, and a Clip of the series is said.
taken() {
  wants "$1: init" 0 "$ts" "$1" init 8
  {
    echo "CreateRowType(reading, t datetime, kwh decimal(8,1), note varchar(40)); TSContainerCreate(meters, reading, 8);"
    echo "CreateCalendar(hours, 'startdate(2011-01-03 00:00:00), pattstart(2011-01-03 00:00:00), pattern({1 on},hour)');"
    echo "TSCreateIrr('meter 7', meters); TSCreate('meter ''8''', hours, '2011-01-03 00:00:00', meters);"
  } > head.script
  input=head.script wants "$1: head" 0 "$ts" "$1" run
  input=$2 wants "$1: statements" 0 "$ts" "$1" run
  [ "$(grep -c '^ok 2' said)" -eq "$(wc -l < "$2")" ] || { failed=$((failed + 1)); echo "FAILED: $1: not each statement was taken"; }
  echo "Clip('$3','2011-01-01 00:00:00','2011-01-31 00:00:00');" > clip.script
  input=clip.script wants "$1: clip" 0 "$ts" "$1" run
}
tells "a table in" 1 "$examples/readings.complaints" \
  "$examples/from_csv" --key 'meter 7' --stamp time --number kwh --text note "$examples/readings.csv"
same "a table in: statements" said "$examples/readings.statements"
taken table.volume "$examples/readings.statements" 'meter 7'
cp said clip.replies
input=clip.replies wants "a table out" 0 "$examples/to_csv" time kwh note
same "a table out: records" said "$examples/readings_back.csv"
cp said back.csv
wants "a table in again" 0 "$examples/from_csv" --key 'meter 7' --stamp time --number kwh --text note back.csv
cp said back.script
taken back.volume back.script 'meter 7'
same "a table in again: the same elements" said clip.replies
input=clip.replies wants "a table out again" 0 "$examples/to_csv" time kwh note
same "a table out again: the same records" said back.csv

# Lines that end in a carriage return too, a mark of the encoding before the head, and a last line without an end.
{ printf '\357\273\277'; sed 's/$/\r/' "$examples/readings.csv"; } | head -c -2 > dos.csv
input=dos.csv tells "a table of DOS" 1 "$examples/readings.complaints" "$examples/from_csv" --key 'meter 7' --stamp time --number kwh --text note
same "a table of DOS: statements" said "$examples/readings.statements"

# A regular series has entries without an element: they come out as records without values, and such records can be left
# out.
cat > keys.csv << 'CSV'
"the key, of the meter",when,kwh,"a ""note"""
meter '8',2011-01-03 04:00:00,4,"; DropSeries('meter 7');"
meter '8',2011-01-03 01:00:00.00000,-1,
meter '8',2011-01-03 02:00:00,,
CSV
cat > wanted << 'SCRIPT'
PutElem('meter ''8''','2011-01-03 04:00:00',4,'; DropSeries(''meter 7'');');
PutElem('meter ''8''','2011-01-03 01:00:00.00000',-1,null);
SCRIPT
wants "keys in a column" 0 "$examples/from_csv" --routine PutElem --leave-out-empty --key-column 'the key, of the meter' --stamp when \
  --number kwh --text 'a "note"' keys.csv
same "keys in a column: statements" said wanted
taken keys.volume wanted "meter ''8''"
cp said clip.replies
cat > wanted << 'CSV'
time,"it's ""kwh""",note
2011-01-03 00:00:00.00000,,
2011-01-03 01:00:00.00000,-1.0,
2011-01-03 02:00:00.00000,,
2011-01-03 03:00:00.00000,,
2011-01-03 04:00:00.00000,4.0,; DropSeries('meter 7');
CSV
input=clip.replies wants "entries out" 0 "$examples/to_csv" time "it's \"kwh\"" note
same "entries out: records" said wanted
cp said back.csv
wants "entries in again" 0 "$examples/from_csv" --leave-out-empty --key "meter '8'" --stamp time --number "it's \"kwh\"" --text note back.csv
cp said back.script
taken entries.volume back.script "meter ''8''"
same "entries in again: the same" said clip.replies

# What can't be said in a script is named, and no value gets out of its place.
{
  echo "t,v,w"
  echo "2011-01-03 00:00:00,1); DropSeries('x',a"
  printf '2011-01-03 00:00:01,1,"a\nb"\n'
  printf '2011-01-03 00:00:02,2,\t\n'
  printf '2011-01-03 00:00:03,3,%0256d\n' 0
  echo "2011-01-03 00:00:04,100000000000000000000000000000000000000,a"
  echo
  echo "2011-01-03 24:00:00,5,a"
  echo "2011-01-03T00:00:06,6,a"
  echo "2011-01-03 00:00:07,7,a,"
  echo '2011-01-03 00:00:08,8,a"b'
  echo '2011-01-03 00:00:09,9,"a"b'
  echo "2012-02-29 00:00:10,-10.50,"
  echo '2011-01-03 00:00:11,11,"a'
  echo "2011-01-03 00:00:12,12,b"
} > bad.csv
cat > wanted << 'LINES'
from_csv: line 2: "v": "1); DropSeries('x'" is no number of a script
from_csv: lines 3 to 4: "w" has a control code, as a line feed or a tab is, which no text of a script has
from_csv: line 5: "w" has a control code, as a line feed or a tab is, which no text of a script has
from_csv: line 6: "w" has 256 bytes, and 255 are the most
from_csv: line 7: "v": "100000000000000000000000000000000000000" is no number of a script
from_csv: line 9: "t": "2011-01-03 24:00:00" is no stamp (YYYY-MM-DD HH:MM:SS)
from_csv: line 10: "t": "2011-01-03T00:00:06" is no stamp (YYYY-MM-DD HH:MM:SS)
from_csv: line 11: 4 fields, where the head has 3
from_csv: line 12: a quote stands in a field that doesn't begin with one
from_csv: line 13: a field goes on behind its closing quote
from_csv: line 15: a quote isn't closed
LINES
tells "bad lines" 1 wanted "$examples/from_csv" --key x --stamp t --number v --text w bad.csv
printf "InsElem('x','%s);\n" "2012-02-29 00:00:10',-10.50,null" "2011-01-03 00:00:12',12,'b'" > wanted
same "bad lines: the others" said wanted
input=bad.csv wants "a column that isn't there" 2 "$examples/from_csv" --key x --stamp t --number u
wants "no head" 2 "$examples/from_csv" --key x --stamp t --number v
for words in "" "--key x --stamp t" "--key x --number v" "--stamp t --number v" "--key x --key-column t --stamp t --number v" \
  "--key x --stamp t --number v --routine DelElem" "--key x --stamp t --number v --float w" "--key x --stamp t --number v a b" \
  "--key x --stamp t --number"; do
  # shellcheck disable=SC2086
  input=bad.csv wants "no table: $words" 2 "$examples/from_csv" $words
done

# Replies that aren't rows.
cat > some.replies << 'REPLIES'
ok
error 24 Missing
2011-01-03 00:00:00.00000 1,'a'
2011-01-03 01:00:00.00000 1
2011-01-03 02:00:00.00000 null,'b
'meter 7' regular 3
2011-01-03 03:00:00.00000 null,'''"'
ok 4
2011-01-03 04:00:00.00000 2,null
ok 2
2011-01-03 05:00:00.00000 3,null
REPLIES
cat > wanted << 'LINES'
to_csv: line 2: error 24 Missing
to_csv: line 4: it has 1 value, and there are names for 2
to_csv: line 5: it is no row
to_csv: line 6: it is no row
to_csv: line 10: it says "ok 2" behind 1 rows
to_csv: line 11: the replies end within a reply
LINES
input=some.replies tells "replies that aren't rows" 1 wanted "$examples/to_csv" t v w
cat > wanted << 'CSV'
t,v,w
2011-01-03 00:00:00.00000,1,a
2011-01-03 03:00:00.00000,,"'"""
2011-01-03 04:00:00.00000,2,
2011-01-03 05:00:00.00000,3,
CSV
same "replies that aren't rows: the rows" said wanted
wants "no names" 2 "$examples/to_csv"

# Tables as they come from a spreadsheet of a German office and from R: other separators, decimal signs, dates and texts
# for what is missing; and the definitions that their heads and their longest values give, which `ts` takes.
# defined NAME WORD..: the table of this name becomes its statements, and each of them is taken by a new volume.
defined() {
  local name=$1
  shift
  tells "$name: in" 1 "$examples/$name.complaints" "$examples/from_csv" "$@" "$examples/$name.csv"
  same "$name: statements" said "$examples/$name.statements"
  sed 's/$/\r/' "$examples/$name.csv" > dos.csv
  tells "$name of DOS: in" 1 "$examples/$name.complaints" "$examples/from_csv" "$@" dos.csv
  same "$name of DOS: statements" said "$examples/$name.statements"
  wants "$name: init" 0 "$ts" "$name.volume" init 8
  input=$examples/$name.statements wants "$name: run" 0 "$ts" "$name.volume" run
  sed 's/ .*//' said > last_words
  sed 's/.*/ok/' "$examples/$name.statements" > wanted
  same "$name: each statement was taken" last_words wanted
}
defined spreadsheet --separator ';' --decimal , --null NA --format '%d.%m.%Y %H:%M' --define meters \
  --key-column Zähler --stamp Zeit --number 'Verbrauch (kWh)' --text Notiz
defined data_frame --null NA --format iso --define air --key 'new york' --stamp time --number temp --number wind \
  --text note
printf 't\tv\n2011-01-03 00:00\t-\n2011-01-03 00:01\t5\n2011-01-03 00:02\tNA\n' > tabs.csv
printf "PutElem('x','2011-01-03 00:0%s);\n" "1:00',5" > wanted
wants "tabs and two texts for null" 0 "$examples/from_csv" --separator tab --null - --null NA --leave-out-empty \
  --format iso --routine PutElem --key x --stamp t --number v tabs.csv
same "tabs and two texts for null: statements" said wanted
printf 'from_csv: the head has no column "t"; it has "t?v": say --separator tab\n' > wanted
tells "a separator that was not said" 2 wanted "$examples/from_csv" --key x --stamp t --number v tabs.csv
for words in "--separator ;;" "--separator a" "--decimal ;" "--format %Y-%m" "--define 2011" "--define it's" --null \
  --define; do
  # shellcheck disable=SC2086
  input=bad.csv wants "no table: $words" 2 "$examples/from_csv" --key x --stamp t --number v $words
done
# Stamps of two series on a grid of two hours, the later ones first; and one that is off it.
printf 'k,t,v\nb,2011-01-03 06:00:00,1\na,2011-01-03 04:00:00,2\na,2011-01-03 02:00:00,3\n' > grid.csv
cat > wanted << 'SCRIPT'
CreateRowType(m, t datetime, v integer);
TSContainerCreate(m, m, 8);
CreateCalendar(m, 'startdate(2011-01-01 00:00:00), pattstart(2011-01-01 00:00:00), pattern({1 on,1 off},hour)');
TSCreate('b', m, '2011-01-03 06:00:00', m);
TSCreate('a', m, '2011-01-03 02:00:00', m);
InsElem('b','2011-01-03 06:00:00',1);
InsElem('a','2011-01-03 04:00:00',2);
InsElem('a','2011-01-03 02:00:00',3);
SCRIPT
echo "from_csv: the container has 8 pages, room to double in: ts VOLUME init 8, or more" > complaints
tells "a grid" 0 complaints "$examples/from_csv" --define m --key-column k --stamp t --number v grid.csv
same "a grid: statements" said wanted
echo 'a,2011-01-03 02:00:00.5,3' >> grid.csv
{
  echo "CreateRowType(m, t datetime, v integer);"
  echo "TSContainerCreate(m, m, 8);"
  echo "TSCreateIrr('b', m);"
  echo "TSCreateIrr('a', m);"
  tail -n 3 wanted
  echo "InsElem('a','2011-01-03 02:00:00.5',3);"
} > irregular
tells "no grid" 0 complaints "$examples/from_csv" --define m --key-column k --stamp t --number v grid.csv
same "no grid: statements" said irregular

# Rows that begin with a key, and stamps alone, become tables; heads come from a script, from a list, or from the rows.
# makes_table NAME REPLIES TABLE WORD..: the replies become this table.
makes_table() {
  local name=$1
  printf '%b' "$2" > some.replies
  printf '%b' "$3" > wanted
  shift 3
  input=some.replies wants "$name" 0 "$examples/to_csv" "$@"
  same "$name: records" said wanted
}
bill="'heat pump' 1.836,2\n'it''s, new' null,0\nok 2\n"
makes_table "a bill" "$bill" 'meter,kwh,count\nheat pump,1.836,2\n"it'"'"'s, new",,0\n' --keys meter kwh count
makes_table "a bill and its list" "$bill" 'key,sum_kwh,count_kwh\nheat pump,1.836,2\n"it'"'"'s, new",,0\n' \
  --keys --list 'sum($kwh), count($kwh)'
makes_table "a bill alone" "$bill" 'key,value_1,value_2\nheat pump,1.836,2\n"it'"'"'s, new",,0\n' --keys
makes_table "a list of series" "'a' regular 3\n'b' irregular 0\nok 2\n" \
  'key,kind,elements\na,regular,3\nb,irregular,0\n' --keys
makes_table "starts" '2011-01-06 00:00:00.00000\n2011-01-07 00:00:00.00000\nok 2\n' \
  'day\n2011-01-06 00:00:00.00000\n2011-01-07 00:00:00.00000\n' day
row='2011-01-03 00:00:00.00000 1.000\nok 1\n'
makes_table "a head of a script" "$row" 't,kwh\n2011-01-03 00:00:00.00000,1.000\n' --script "$examples/meter_day.script"
makes_table "a head of a list" "$row" 'time,SUM_kwh\n2011-01-03 00:00:00.00000,1.000\n' --list 'SUM($kwh)'
echo "'a' 1" > some.replies
printf 'to_csv: line 1: %s\n' "it has 1 value, and there are names for 2" "the replies end within a reply" > wanted
input=some.replies tells "a row with a key that has too few values" 1 wanted "$examples/to_csv" --keys key v w
printf 'to_csv: %s\n' "line 1: it is no row" > wanted
input=some.replies tells "a row with a key where stamps stand" 1 wanted "$examples/to_csv" t v
for words in "--list sum(kwh)" "--script none" "--script bad.csv" "--row-type reading" --nothing \
  "--script $examples/meter_day.script t v"; do
  # shellcheck disable=SC2086
  wants "no head: $words" 2 "$examples/to_csv" $words
done
