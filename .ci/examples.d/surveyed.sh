# shellcheck shell=bash
# Volumes of three element pages, written by hand: which page a check tells, and whether an opening refuses them.

# puts VOLUME PATCH..: each patch is PAGE:PLACE:BYTES, and its bytes, as printf has them, stand there from now on.
puts() {
  local volume=$1 patch page place bytes
  shift
  for patch in "$@"; do
    IFS=: read -r page place bytes <<< "$patch"
    write_at "$volume" $((page * 4096 + place)) "$bytes"
  done
}

# surveyed NAME VOLUME: of each line, `JUDGED PATCH..`, that volume with these patches, the one behind the other, is
# checked and opened. JUDGED is its first bad page, or `used:N` where it is good and N of its element pages aren't free.
surveyed() {
  local name=$1 volume=$2 row=0 judged patches
  while read -r judged patches; do
    [[ $judged = "#" ]] && continue
    row=$((row + 1))
    cp "$volume" row.volume
    # shellcheck disable=SC2086
    puts row.volume $patches
    if [[ $judged = used:* ]]; then
      judged "$name, row $row" row.volume 0 "ok ${judged#used:} of 3"
      wants "$name, row $row: an opening" 0 "$ts" row.volume run
    else
      judged "$name, row $row" row.volume 6 "bad page $judged"
      wants "$name, row $row: an opening" 6 "$ts" row.volume run
    fi
  done
}

# The good volume, of the old format: a row type of an integer, a container of two pages in slot 3, an irregular series
# in slot 50, and on page 931 its element 5 of 2011-01-03 00:00:00.
CELL='\001\000\000\165\260\225\123\360\000\001\000\000\000\005'
rm -f good.volume
truncate -s $((933 * 4096)) good.volume
puts good.volume '0:0:TSVOLUME\001\000\000\000\003' \
  '257:0:\001\001r' '257:34:\001t' '257:67:\001\002\000\000\001v' \
  '833:180:\001\001c' '833:214:\000\000\000\000\002' '835:658:\002\001k' '835:724:\003' \
  '931:0:\002\000\062\000\001' "931:32:$CELL"
NEWEST='0:8:\002'

# A second page of the series, and a third; the second is of another series of the container; its quota is one page.
SECOND='930:0:\002\000\062\000\001'
SECOND_CELL="930:32:$CELL"
THIRD='932:0:\002\000\062\000\001'
THIRD_CELL="932:32:$CELL"
OTHER='930:2:\063 835:752:\002\001l 835:818:\003'
ONE_PAGE='833:218:\001'
HIDDEN='931:41:\003\000\000\000\005'
HIDDEN_NULL='931:41:\002\000\000\000\000'
surveyed "element pages" good.volume << ROWS
used:1
# No kind of page, a regular page of a series that isn't, a page of an empty slot.
930 930:0:\003
931 931:0:\001
931 931:2:\063
# No elements, one too many, a byte behind them, a cell that is none, a row that is none.
931 931:4:\000
931 931:4:\002
931 931:46:\001
931 931:32:\000
931 931:41:\002
# A free page may have any bytes behind its first.
used:1 930:1:\011\011\011
# Stamps that don't rise, and stamps that do.
931 931:4:\002 931:46:$CELL 931:53:\360
used:1 931:4:\002 931:46:$CELL 931:53:\361
# A second page of the series: with the same stamp; later, and earlier, which fits one page with the first. Two that
# fit one page, and one more that overlaps.
931 $SECOND $SECOND_CELL
931 $SECOND $SECOND_CELL 930:40:\001
930 $SECOND $SECOND_CELL 930:39:\357
932 $SECOND $SECOND_CELL 930:39:\357 $THIRD $THIRD_CELL
# One of another series of the container, which has a quota of one page then.
833 $SECOND $SECOND_CELL $OTHER $ONE_PAGE
used:2 $SECOND $SECOND_CELL $OTHER
# The integer 5 and NULL, hidden: bad in the old format, good in the newest; and a mark that is none.
931 $HIDDEN
931 $HIDDEN_NULL
used:1 $NEWEST $HIDDEN
used:1 $NEWEST $HIDDEN_NULL
931 $NEWEST 931:41:\004
# A container over its quota: a page with a hidden element comes first in the old format.
931 $SECOND $SECOND_CELL $OTHER $ONE_PAGE $HIDDEN
833 $NEWEST $SECOND $SECOND_CELL $OTHER $ONE_PAGE $HIDDEN
ROWS

# A series of the same key in the next slot, and in the next page but five; a container that refers to nothing.
BESIDE='835:752:\002\001k'
BEHIND='841:0:\002\001k'
DANGLING='833:214:\001'
surveyed "slots" good.volume << ROWS
# The header: another number of pages, a byte behind it; formats that there are, and that there aren't.
0 0:12:\002
0 0:4095:\001
0 0:8:\000
used:1 0:8:\001
used:1 0:8:\002
0 0:8:\003
0 0:8:\011
# A pattern without a name, a byte in the page of no calendar, the rest of pages with slots.
321 321:0:\001
832 832:4095:\001
833 833:3840:\001
929 929:1034:\001
# A container: a row type past the last slot, no quota, one of too many pages, one of 4 pages in a volume of 3.
833 833:214:\100
833 833:218:\000
833 833:215:\000\001\000\001
833 833:218:\004
# A series: its first byte, its key of no bytes, a container past the last slot, one that is empty.
835 835:658:\003
835 835:659:\000\000
835 835:724:\100
835 835:724:\002
# A key that stands twice; a container that refers to nothing then; and a page that breaks the format.
835 $BESIDE
841 $BEHIND
833 $BEHIND $DANGLING
900 $BEHIND $DANGLING 900:0:\011
833 $DANGLING
ROWS

# The number 5 in 16 bytes; a row type as the first, behind it; and one of another name with a decimal of 19 digits.
LONG='931:42:\000\000\000\000\000\000\000\000\000\000\000\000\000\000\000\005'
AGAIN='258:0:\001\001r 258:34:\001t 258:67:\001\002\000\000\001v'
DECIMAL='300:0:\001\001q 300:34:\001t 300:67:\001\004\023\000\001v'
surveyed "row types" good.volume << ROWS
# The first byte, a byte behind the name, one column more, a kind of none, a byte behind the row type.
257 257:0:\002
257 257:3:\001
257 257:67:\002
257 257:68:\006
257 257:4095:\001
# A decimal of 18 digits, whose cell the element's bytes are too; of 19 and of 28, which have 16 bytes, in the old
# format; and of 19, of 28 and of 29 in the newest.
used:1 257:68:\004\022
257 257:68:\004\023 $LONG
257 257:68:\004\034 $LONG
used:1 $NEWEST 257:68:\004\023 $LONG
used:1 $NEWEST 257:68:\004\034 $LONG
257 $NEWEST 257:68:\004\035 $LONG
# A name that is there twice; and behind its page a decimal of 19 digits, which in the old format comes first.
258 $AGAIN
300 $AGAIN $DECIMAL
258 $NEWEST $AGAIN $DECIMAL
ROWS

# The pattern {1 off,5 on,1 off},day in slot 2; in slot 5 a calendar by its name, from 2011-01-03 on; and in slot 6 one
# with such a pattern of its own.
START='\000\000\165\260\225\123\360\000'
WEEK='\003\000\003\000\000\000\001\200\000\000\005\000\000\000\001'
cp good.volume defined.volume
puts defined.volume '323:0:\001\002ww' "323:34:$WEEK" '582:0:\001\003cal' "582:34:$START" "582:42:$START\\000\\002" \
  '583:0:\001\003own' "583:34:$START" "583:42:$START\\001\\000$WEEK"
AGAIN='324:0:\001\002ww 324:34:\000\000\001\200\000\000\001'
surveyed "patterns" defined.volume << ROWS
used:1
# The first byte, a unit of none, a byte behind the runs.
323 323:0:\002
323 323:34:\007
323 323:49:\001
# No runs, runs past the most, a run of 0, neighbours alike.
323 323:36:\000
323 323:35:\002\001
323 323:37:\000\000\000\000
323 323:37:\200
# 527041 intervals, and 527040.
323 323:41:\200\010\012\277
used:1 323:41:\200\010\012\276
# The name a second time, in the next slot; and behind it a page that breaks the format.
324 $AGAIN
900 $AGAIN 900:0:\011
ROWS

# The slot of no pattern; a pattern start eight days after the start.
EMPTY='582:51:\003'
LATE='582:42:\000\000\165\300\255\063\160\000'
surveyed "calendars" defined.volume << ROWS
# Starts past the year 9999, neither a slot nor a pattern, a run behind a slot, a pattern with no unit.
582 582:34:\177
582 582:42:\177
582 582:50:\002
582 582:52:\003\000\001\200\000\000\001
583 583:52:\007
# A name that is taken; an empty slot of a pattern, which comes behind a page that breaks the format.
583 583:1:\003cal
582 $EMPTY
900 $EMPTY 900:0:\011
# A pattern start six days after the start, and eight.
used:1 582:42:\000\000\165\274\247\073\220\000
582 $LATE
# Before that comes a later calendar with its name, and a container that refers to nothing; behind it one with too many
# pages.
583 $LATE 583:1:\003cal
833 $LATE $DANGLING
582 $LATE 833:218:\004
# A pattern that is never on.
582 323:34:\003\000\001\000\000\000\001\000\000\000\000\000\000\000\000
ROWS

# Rows so wide that a page holds four: the page of the series has the stamps 0, 2, 4 and 6 then, without values, and
# the quota is three pages. at PAGE CELL STAMP: the patch of such a cell; the stamp has two octal digits.
at() {
  echo "$1:$((32 + $2 * 1009)):\\001\\000\\000\\165\\260\\225\\123\\360\\0$3"
}
cp good.volume wide.volume
puts wide.volume '257:67:\004\005\377\000\001v' '257:104:\005\377\000\001w' '257:140:\005\377\000\001x' \
  '257:176:\005\343\000\001y' '833:218:\003' '931:4:\004' '931:41:\000\000\000\000\000' \
  "$(at 931 1 02)" "$(at 931 2 04)" "$(at 931 3 06)"
surveyed "chains" wide.volume << ROWS
used:1
# A later page with one element, and the charge of both in a container with a quota of two pages.
used:2 $SECOND $(at 930 0 07)
833 $SECOND $(at 930 0 07) 833:218:\002
# A page that begins at the first's last stamp, or before it.
931 $SECOND $(at 930 0 06)
931 $SECOND $(at 930 0 05)
# And before it a page behind it that overlaps it too.
931 $SECOND $(at 930 0 05) $THIRD $(at 932 0 03)
# Two pages with as many elements as one has room for.
931 $SECOND $(at 930 0 07) 931:4:\003 931:3059:\000\000\000\000\000\000\000\000\000
# A page between two by its stamps and behind them by its number: the charge of the three is too much.
833 930:0:\002\000\062\000\004 $(at 930 0 10) $(at 930 1 11) $(at 930 2 12) $(at 930 3 13) $THIRD $(at 932 0 07)
# A page of the same stamp as the last but one.
932 $SECOND $(at 930 0 07) $THIRD $(at 932 0 07)
ROWS

# In slot 3 a regular series of the container, on a calendar of each day, from 2011-01-03 on, and on page 932 its cells
# from offset 677 on, with the integer 7 in the first and NULL in the last.
SEVEN='\001\001\000\000\000\007'
NULL='\001\000\000\000\000\000'
NONE='\000\000\000\000\000\000'
cp good.volume days.volume
puts days.volume '834:282:\001\001g' "834:348:\\003\\005$START" '582:0:\001\001d' "582:34:$START" \
  "582:42:$START\\001\\000\\003\\000\\001\\200\\000\\000\\001" \
  '932:0:\001\000\003\000\002\000\000\000\000\000\000\002\245' "932:32:$SEVEN" "932:4088:$NULL"

# The pattern starts two days after the start; the origin is 2011-01-03 00:00:00.00001; a day off, a day on.
LATE='582:42:\000\000\165\264\233\113\320\000'
WITHIN='834:357:\001'
OFF_ON='582:53:\000\002\000\000\000\001\200\000\000\001'
surveyed "slots of regular series" days.volume << ROWS
used:2
# An origin past the year 9999, which comes before too many pages of quotas; a byte behind it.
834 834:350:\177
834 834:350:\177 833:218:\004
834 834:358:\001
# The slot of a calendar in an irregular series, and an origin there.
835 835:725:\005
835 835:733:\001
# An empty slot of a calendar, which comes before a calendar that breaks a rule.
834 834:349:\006
834 834:349:\006 $LATE
582 $LATE
# An origin within an interval, behind too many pages of quotas, before a bad page of elements.
834 $WITHIN
833 $WITHIN 833:218:\004
834 $WITHIN 930:0:\011
# An origin of a day before the calendar's start.
834 834:350:\000\000\165\256\222\130\000\000
# The origin starts an interval that is off, and the next day one that is on.
834 $OFF_ON
used:2 $OFF_ON 834:350:\000\000\165\262\230\117\340\000
ROWS

# The base is 2917870, so that 9999-12-31 is in cell 49; the greatest multiple of 677 below 2^64; pages of one element,
# their bases.
LAST='932:5:\000\000\000\000\000\054\205\356'
GREATEST='932:5:\377\377\377\377\377\377\377\206'
BASE_0="930:0:\\001\\000\\003\\000\\001\\000\\000\\000\\000\\000\\000\\000\\000 930:32:$SEVEN"
BASE_677="930:0:\\001\\000\\003\\000\\001\\000\\000\\000\\000\\000\\000\\002\\245 930:32:$SEVEN"
MIDDLE_677="931:0:\\001\\000\\003\\000\\001\\000\\000\\000\\000\\000\\000\\002\\245 931:32:$SEVEN"
surveyed "regular pages" days.volume << ROWS
# The head: too few elements and too many, none, a base that is no multiple of 677, a byte behind the base.
932 932:4:\001
932 932:4:\003
932 932:4:\000 932:32:$NONE 932:4088:$NONE
932 932:12:\246
932 932:13:\001
# A cell that is none, a row that is none, a byte in the row of no element, a byte behind the cells.
932 932:32:\002
932 932:33:\004
932 932:39:\001
932 932:4094:\001
# A hidden element: bad in the old format, good in the newest.
932 932:33:\003
used:2 $NEWEST 932:33:\003
# A page of the other kind than its series.
932 932:2:\062
931 931:2:\003
# The last day that there is, and one more; offsets without days, and past all numbers.
used:2 $LAST 932:4088:$NONE 932:326:$NULL
932 $LAST 932:4088:$NONE 932:332:$NULL
932 $GREATEST 932:4:\001 932:4088:$NONE
932 $GREATEST
# Two pages of one base, which come before a container over its quota; and behind a page that is bad by itself.
932 $BASE_677
931 $BASE_677 931:4:\000
# Three pages of one base.
931 $BASE_677 $MIDDLE_677 931:38:\000\000\000\000\000\000\000\000
# A page for each of two bases: the charge of the container is three pages, of its quota of two, and of three.
833 $BASE_0
used:3 $BASE_0 833:218:\003
ROWS
rm -f row.volume good.volume defined.volume wide.volume days.volume
