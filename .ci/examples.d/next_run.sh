# shellcheck shell=bash
# What one run stored, the next one reads; definitions at most.

# What follows a statement that is too long is carried out.
{ head -c 65536 /dev/zero | tr '\0' x; echo ";GetNelems('n');"; } > long.script
printf 'error 2 TooLong\nerror 10 UnknownName\n' > long.replies
wants "a statement too long: init" 0 "$ts" long.volume init 8
input=long.script wants "a statement too long: run" 0 "$ts" long.volume run
same "a statement too long: replies" said long.replies

# What one run stored, the next one reads.
# goes_on NAME SCRIPT REPLIES: a run of this script says these lines.
goes_on() {
  echo "$2" > next.script
  printf "$3" > next.replies
  input=next.script wants "$1" 0 "$ts" next.volume run
  same "$1: replies" said next.replies
}
wants "run after run: init" 0 "$ts" next.volume init 8
goes_on "the first run" "CreateRowType(rd, t datetime, v integer);TSContainerCreate(c1, rd, 8);
  TSCreateIrr('x', c1);TSCreateIrr('y', c1);" 'ok\nok\nok\nok\n'
goes_on "the second run" "InsElem('x','2011-01-05 00:00:00',2);InsElem('x','2011-01-03 00:00:00',1);" \
  'ok 2011-01-05 00:00:00.00000\nok 2011-01-03 00:00:00.00000\n'
goes_on "the third run" "GetElem('x','2011-01-05 00:00:00');InsElem('x','2011-01-05 00:00:00',3);
  ListSeries(c1);TSContainerUsage(c1);" \
  "2011-01-05 00:00:00.00000 2\nok 1\nerror 23 Duplicate\n'x' irregular 2\n'y' irregular 0\nok 2\nok 1 8\n"
goes_on "a script that ends in a transaction" "Begin;InsElem('x','2011-01-06 00:00:00',4);
  DelElem('x','2011-01-05 00:00:00');GetNelems('x');GetLastElem('x');" \
  'ok\nok 2011-01-06 00:00:00.00000\nok 1\nok 2\n2011-01-06 00:00:00.00000 4\nok 1\n'
goes_on "the run behind it" "GetNelems('x');GetLastElem('x');Commit;" \
  'ok 2\n2011-01-05 00:00:00.00000 2\nok 1\nerror 50 NotOpen\n'

# 256 patterns and calendars at most. What ShowPattern and ShowCalendar print of 512 runs is read again.
runs=$(seq -s, 512 | sed 's/[0-9]*[13579]\b/& on/g; s/[0-9]*[02468]\b/& off/g')
longer=$(seq -s, 513 | sed 's/[0-9]*[13579]\b/& on/g; s/[0-9]*[02468]\b/& off/g')
dates='startdate(2011-01-02 00:00:00.00000), pattstart(2011-01-02 00:00:00.00000)'
wants "256 patterns: init" 0 "$ts" many.volume init 8
{
  echo "CreatePattern(p1, '{$runs},second'); ShowPattern(p1); CreatePattern(q, '{$longer},second');"
  echo "CreateCalendar(c1, '$dates, pattern({$runs},second)'); ShowCalendar(c1);"
  for number in $(seq 2 257); do
    echo "CreatePattern(p$number, '{$number on},day'); CreateCalendar(c$number, '$dates, pattname(p$number)');"
  done
} > many.script
{
  printf 'ok\n{%s},second\nok\nerror 17 PatternTooLong\nok\n%s, pattern({%s},second)\nok\n' "$runs" "$dates" "$runs"
  for number in $(seq 2 256); do printf 'ok\nok\n'; done
  printf 'error 33 TooMany\nerror 10 UnknownName\n'
} > many.replies
input=many.script wants "256 patterns: run" 0 "$ts" many.volume run
same "256 patterns and calendars at most" said many.replies
{ echo "ShowCalendar(c1); ShowPattern(p256); CreateCalendar(z, '$dates, pattname(p7)');"; } > many.script
printf '%s, pattern({%s},second)\nok\n{256 on},day\nok\nerror 33 TooMany\n' "$dates" "$runs" > many.replies
input=many.script wants "256 patterns: the next run" 0 "$ts" many.volume run
same "the next run has them" said many.replies

# A calendar by the name of a pattern whose slot is emptied, one that breaks a rule, and patterns that break their form:
# no store.
# broken NAME PAGE BYTE BYTES: a copy of the volume with these bytes at a byte of a page is refused.
broken() {
  cp sound.volume broken.volume
  printf "$4" | dd of=broken.volume bs=1 seek=$(($2 * 4096 + $3)) conv=notrunc status=none
  wants "$1" 6 "$ts" broken.volume run
}
wants "a calendar: init" 0 "$ts" sound.volume init 1
{
  echo "CreatePattern(p, '{1 off,5 on,1 off},day');"
  echo "CreateCalendar(c, '$dates, pattname(p)'); CreateCalendar(o, '$dates, pattern({1 on},month)');"
} > sound.script
input=sound.script wants "a calendar: run" 0 "$ts" sound.volume run
wants "a calendar: the journal is settled" 0 "$ts" sound.volume run
broken "a pattern's unit that is none" 321 34 '\007'
broken "a run of 0" 321 40 '\000'
broken "neighbours of one flag" 321 41 '\000'
broken "a length over the limit" 321 42 '\010\013\000'
broken "more runs than there are" 321 36 '\004'
broken "a calendar whose pattern's slot is empty" 577 51 '\001'
broken "a calendar by name with runs of its own" 577 52 '\003\000\001\200\000\000\001'
broken "a pattern start before the start" 577 44 '\000'
broken "an all-off calendar" 578 55 '\000'
broken "a name that stands twice" 578 2 'c'
