# shellcheck shell=bash
# What stands in the bytes of a volume, and which bytes are no store: elements, definitions, irregular series.

# A volume that means no catalogue: the kind of an element page, the header, a row type, a container, and an open gate
# with a record of four bytes.
echo "GetNelems('n');" > ask.script
while read -r place bytes; do
  rm -f new.volume
  wants "no catalogue at $place: init" 0 "$ts" new.volume init 1
  write_at new.volume "$place" "$bytes"
  input=ask.script wants "no catalogue at $place" 6 "$ts" new.volume run
  same "no catalogue at $place: nothing is said" said nothing
done << BYTES
$((930 * 4096)) \001
8 \003
$((257 * 4096)) \003
$((833 * 4096)) \002
4096 GATEOPEN\000\000\000\004
BYTES
rm new.volume

# Definitions made by hand, a row type of three texts and a container of it: without a series, and with one of texts.
wants "definitions by hand: init" 0 "$ts" hand.volume init 8
write_at hand.volume $((257 * 4096)) '\001\004wide'
write_at hand.volume $((257 * 4096 + 34)) '\001t'
write_at hand.volume $((257 * 4096 + 67)) '\003\005\377\000\001p'
write_at hand.volume $((257 * 4096 + 104)) '\005\377\000\001q'
write_at hand.volume $((257 * 4096 + 140)) '\005\377\000\001r'
write_at hand.volume $((833 * 4096)) '\001\002c1'
write_at hand.volume $((833 * 4096 + 38)) '\010'
echo "InsElem('x','2011-01-03 00:00:00',1);" > hand.script
echo "error 10 UnknownName" > wanted
input=hand.script wants "definitions by hand: no series" 0 "$ts" hand.volume run
same "definitions by hand: no series: reply" said wanted
write_at hand.volume $((834 * 4096)) '\002\001x'
echo "error 26 RowMismatch" > wanted
input=hand.script wants "definitions by hand: a series of texts" 0 "$ts" hand.volume run
same "definitions by hand: a series of texts: reply" said wanted
rm hand.volume

# An element stands where the format has it, once an opening has settled the journal: the head of its page, and its
# cell.
# stands NAME WANTED FROM COUNT: these bytes stand in the one element page, from a byte of it on.
stands() {
  od -An -v -tx1 -j "$((930 * 4096 + $3))" -N "$4" one.volume | tr -d ' \n' > said
  printf %s "$2" > wanted
  same "$1" said wanted
}
wants "one element: init" 0 "$ts" one.volume init 1
{
  echo "CreateRowType(rd, t datetime, v integer); TSContainerCreate(c1, rd, 1);"
  echo "TSCreateIrr('x', c1); InsElem('x','2011-01-03 00:00:00',5);"
} > one.script
input=one.script wants "one element: run" 0 "$ts" one.volume run
wants "one element: the journal is settled" 0 "$ts" one.volume run
stands "the head of a page" 0200000001000000 0 8
stands "a cell" 01000075b09553f0000100000005 32 14

# after NAME SCRIPT CELL: the page after this script has that head and this cell alone, once an opening has settled the
# journal.
after() {
  echo "$2" > one.script
  input=one.script wants "$1: run" 0 "$ts" one.volume run
  wants "$1: the journal is settled" 0 "$ts" one.volume run
  stands "$1: the head" 0200000001000000000000000000000000000000000000000000000000000000 0 32
  stands "$1: the cell" "$3" 32 14
  stands "$1: nothing behind it" "$(printf '%0*d' 8100 0)" 46 4050
}
after "an insert where one is" "InsElem('x','2011-01-03 00:00:00',-8);" 01000075b09553f0000100000005
after "a hidden element" "HideElem('x','2011-01-03 00:00:00');" 01000075b09553f0000300000005
after "it is seen again" "RevealElem('x','2011-01-03 00:00:00');" 01000075b09553f0000100000005

# A dropped series goes with its page: the first byte of a free page is 0.
echo "DropSeries('x');" > drop.script
input=drop.script wants "a dropped series: run" 0 "$ts" one.volume run
wants "a dropped series: the journal is settled" 0 "$ts" one.volume run
stands "the page of a dropped series" 00 0 1
