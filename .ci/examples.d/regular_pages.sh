# shellcheck shell=bash
# Pages of regular series in bytes, and those that break a rule.

# A page of a regular series stands where the format has it: its head, and its first three cells. The first offset of
# the page is 677.
rm -f one.volume
wants "a regular page: init" 0 "$ts" one.volume init 1
{
  echo "CreateRowType(rd, t datetime, v integer); TSContainerCreate(c1, rd, 1);"
  echo "CreateCalendar(m, 'startdate(2011-01-03 00:00:00), pattstart(2011-01-03 00:00:00), pattern({1 on},minute)');"
  echo "TSCreateIrr('x', c1); TSCreateIrr('y', c1); TSCreateIrr('z', c1); TSCreate('r', m, '2011-01-03 00:00:59', c1);"
  echo "InsElem('r','2011-01-03 11:17:00',5); InsElem('r','2011-01-03 11:19:30',-1); HideElem('r','2011-01-03 11:19:00');"
} > one.script
input=one.script wants "a regular page: run" 0 "$ts" one.volume run
wants "a regular page: the journal is settled" 0 "$ts" one.volume run
stands "the head of a regular page" 0100030002000000000000 0 11
stands "the first offset of a regular page" 00000000000002a5 5 8
stands "the cells of a regular page" 010100000005000000000000 32 12
stands "a hidden cell of a regular page" 0103ffffffff 44 6

# Regular series and their pages that break a rule: no store.
cp one.volume sound.volume
broken "a regular series whose calendar's slot is empty" 834 $((94 * 3 + 67)) '\001'
broken "a regular series whose origin is off" 834 $((94 * 3 + 75)) '\001'
broken "an origin before the calendar's start" 834 $((94 * 3 + 70)) '\000'
broken "an irregular series with an origin" 834 $((94 * 2 + 75)) '\001'
broken "a series with pages that turns irregular" 834 $((94 * 3)) '\002'
broken "a first offset that is no multiple" 930 12 '\246'
broken "a count that isn't that of the flags" 930 4 '\003'
broken "a flag that is none" 930 32 '\002'
broken "bytes behind an empty flag" 930 40 '\001'
broken "a row that is none" 930 33 '\002'
broken "a regular page of an irregular series" 930 2 '\002'
broken "a regular page of no series" 930 2 '\004'
broken "an irregular page of a regular series" 930 0 '\002'
broken "bytes behind the cells" 930 4095 '\001'

# A regular page at a first offset that has another already, and one whose offsets have no stamp.
rm -f sound.volume
wants "the end of time: init" 0 "$ts" sound.volume init 2
{
  echo "CreateRowType(rd, t datetime, v integer); TSContainerCreate(c1, rd, 1);"
  echo "CreateCalendar(d, 'startdate(2011-01-03 00:00:00), pattstart(2011-01-03 00:00:00), pattern({1 on},day)');"
  echo "TSCreate('r', d, '9999-12-30 12:00:00', c1);"
  echo "InsElem('r','9999-12-30 23:00:00',1); InsElem('r','9999-12-31 23:59:59.99999',2);"
} > sound.script
input=sound.script wants "the end of time: run" 0 "$ts" sound.volume run
wants "the end of time: the journal is settled" 0 "$ts" sound.volume run
cp sound.volume broken.volume
printf '\003' | dd of=broken.volume bs=1 seek=$((930 * 4096 + 4)) conv=notrunc status=none
printf '\001\001\000\000\000\003' | dd of=broken.volume bs=1 seek=$((930 * 4096 + 44)) conv=notrunc status=none
wants "a third day behind the last one" 6 "$ts" broken.volume run
cp sound.volume broken.volume
dd if=sound.volume of=broken.volume bs=4096 skip=930 seek=931 count=1 conv=notrunc status=none
wants "two pages from one offset on" 6 "$ts" broken.volume run
printf '\000' | dd of=broken.volume bs=1 seek=$((931 * 4096)) conv=notrunc status=none
wants "one of them freed" 0 "$ts" broken.volume run
