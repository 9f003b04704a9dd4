# shellcheck shell=bash
# Volumes of zeros, of the old format, and migrated ones.

# A volume of zeros is no store.
head -c 3813376 /dev/zero > zeros.volume
wants "a volume of zeros" 6 "$ts" zeros.volume run
wants "a volume of zeros: migrate" 6 "$ts" zeros.volume migrate

# A volume of the old format, as `init` of an earlier version made it: readings leave it byte by byte, and `migrate`
# makes it take what only the newest format has. Its second run changes nothing.
wants "an old volume: init" 0 "$ts" old.volume init 8
in_format 1 old.volume
{
  echo "CreateRowType(rd, t datetime, v integer);TSContainerCreate(c1, rd, 8);"
  echo "TSCreateIrr('x', c1);InsElem('x','2011-01-03 00:00:00',1);"
} > old.script
input=old.script wants "an old volume: run" 0 "$ts" old.volume run
wants "an old volume: the journal is settled" 0 "$ts" old.volume run
cp old.volume before
echo "GetElem('x','2011-01-03 00:00:00');HideElem('x','2011-01-03 00:00:00');" > hide.script
printf '2011-01-03 00:00:00.00000 1\nok 1\nerror 44 OldFormat\n' > hide.replies
input=hide.script wants "an old volume: readings" 0 "$ts" old.volume run
same "an old volume: replies" said hide.replies
same "readings leave an old volume" before old.volume
wants "an old volume: migrate" 0 "$ts" old.volume migrate
: > nothing
same "migrate says nothing" said nothing
printf '2011-01-03 00:00:00.00000 1\nok 1\nok 2011-01-03 00:00:00.00000\n' > hide.replies
input=hide.script wants "a migrated volume: run" 0 "$ts" old.volume run
same "a migrated volume: replies" said hide.replies
wants "a migrated volume: the journal is settled" 0 "$ts" old.volume run
cp old.volume before
wants "a migrated volume: migrate" 0 "$ts" old.volume migrate
same "migrate leaves a volume of the newest format" before old.volume

# Elements are hidden once a volume is migrated: a mark may be set twice, and what is hidden counts but for the
# readings.
series="CreateRowType(rd, t datetime, v integer);TSContainerCreate(c1, rd, 8);TSCreateIrr('x', c1);TSCreateIrr('y', c1);"
wants "marks: init" 0 "$ts" marks.volume init 8
in_format 1 marks.volume
echo "$series" > some.script
input=some.script wants "marks: run" 0 "$ts" marks.volume run
wants "marks: the journal is settled" 0 "$ts" marks.volume run
echo "HideElem('x','2011-01-03 00:00:00');" > some.script
echo "error 44 OldFormat" > wanted
input=some.script wants "marks: an old volume has none" 0 "$ts" marks.volume run
same "marks: an old volume has none: reply" said wanted
wants "marks: migrate" 0 "$ts" marks.volume migrate
same "marks: migrate says nothing" said nothing
cat > some.script << 'SCRIPT'
InsElem('x','2011-01-03 00:00:00',1);
InsElem('x','2011-01-04 00:00:00',2);
HideElem('x','2011-01-03 00:00:00');
HideElem('x','2011-01-03 00:00:00');
Clip('x','2011-01-01 00:00:00','2011-01-31 00:00:00');
GetElem('x','2011-01-03 00:00:00');
GetNelems('x');
InsElem('x','2011-01-03 00:00:00',9);
RevealElem('x','2011-01-03 00:00:00');
RevealElem('x','2011-01-03 00:00:00');
GetElem('x','2011-01-03 00:00:00');
HideElem('x','2011-01-05 00:00:00');
SCRIPT
cat > wanted << 'REPLIES'
ok 2011-01-03 00:00:00.00000
ok 2011-01-04 00:00:00.00000
ok 2011-01-03 00:00:00.00000
ok 2011-01-03 00:00:00.00000
2011-01-04 00:00:00.00000 2
ok 1
ok 0
ok 2
error 23 Duplicate
ok 2011-01-03 00:00:00.00000
ok 2011-01-03 00:00:00.00000
2011-01-03 00:00:00.00000 1
ok 1
error 24 Missing
REPLIES
input=some.script wants "marks: a migrated volume" 0 "$ts" marks.volume run
same "marks: a migrated volume: replies" said wanted
rm marks.volume

# Neither job takes a volume of the old format in which an element is hidden, nor one of a format that isn't known.
wants "a hidden element: init" 0 "$ts" marks.volume init 8
echo "${series}InsElem('x','2011-01-03 00:00:00',1);HideElem('x','2011-01-03 00:00:00');" > some.script
input=some.script wants "a hidden element: run" 0 "$ts" marks.volume run
wants "a hidden element: the journal is settled" 0 "$ts" marks.volume run
for format in 1 3 0 2; do
  in_format $format marks.volume
  status=$((format == 2 ? 0 : 6))
  wants "a hidden element: run in format $format" $status "$ts" marks.volume run
  wants "a hidden element: migrate in format $format" $status "$ts" marks.volume migrate
done
rm marks.volume
