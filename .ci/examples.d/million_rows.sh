# shellcheck shell=bash
# Replies of a million rows.

# A reply of a million rows is said whole, and one of a row more is refused.
echo "CreateCalendar(s, 'startdate(2011-01-03 00:00:00), pattstart(2011-01-03 00:00:00), pattern({1 on},second)');
  CalRange(s, '2011-01-03 00:00:00', '2011-01-14 13:46:39'); CalRange(s, '2011-01-03 00:00:00', '2011-01-14 13:46:40');" > large.script
{
  echo ok
  awk 'BEGIN { for (n = 0; n < 1000000; n++) printf "2011-01-%02d %02d:%02d:%02d.00000\n", 3 + n / 86400, n / 3600 % 24, n / 60 % 60, n % 60 }'
  printf 'ok 1000000\nerror 34 TooLarge\n'
} > large.replies
input=large.script wants "a million rows: run" 0 "$ts" sound.volume run
same "a million rows" said large.replies

# So are a Clip of a regular series and a Union: by seconds, with elements at both ends; and with the weeks, whose
# elements stand at each second.
wants "a million entries: init" 0 "$ts" large.volume init 4
{
  echo "CreateRowType(rd, t datetime, v integer); TSContainerCreate(c1, rd, 4);"
  for unit in second week; do
    echo "CreateCalendar(by_$unit, 'startdate(2011-01-03 00:00:00), pattstart(2011-01-03 00:00:00), pattern({1 on},$unit)');
      TSCreate('$unit', by_$unit, '2011-01-03 00:00:00', c1);"
  done
  echo "PutElem('second','2011-01-03 00:00:00',1); PutElem('second','2011-01-14 13:46:39',2);"
  echo "PutElem('week','2011-01-03 00:00:00',3); PutElem('week','2011-01-10 00:00:00',4);"
  echo "Clip('second','2011-01-03 00:00:00','2011-01-31 00:00:00'); ClipCount('second','2011-01-01 00:00:00',1000000);"
  echo "Union('week','second','2011-01-03 00:00:00','2011-01-14 13:46:39'); Union('week','second','2011-01-03 00:00:00','2011-01-14 13:46:40');"
  echo "PutElem('second','2011-01-14 13:46:40',5); Clip('second','2011-01-03 00:00:00','2011-01-31 00:00:00');"
  echo "ClipGetCount('second','2011-01-03 00:00:00','2011-01-31 00:00:00');"
} > large.script
{
  printf 'ok\nok\nok\nok 2011-01-03 00:00:00.00000\nok\nok 2011-01-03 00:00:00.00000\n'
  printf 'ok 2011-01-%s.00000\n' '03 00:00:00' '14 13:46:39' '03 00:00:00' '10 00:00:00'
  awk '
    function stamp(n) { return sprintf("2011-01-%02d %02d:%02d:%02d.00000", 3 + n / 86400, n / 3600 % 24, n / 60 % 60, n % 60) }
    function value(n, none) { return n == 0 ? 1 : n == 999999 ? 2 : none }
    BEGIN {
      for (turn = 1; turn <= 2; turn++) {
        for (n = 0; n < 1000000; n++) print stamp(n) " " value(n, "none")
        print "ok 1000000"
      }
      for (n = 0; n < 1000000; n++) print stamp(n) " " (n < 604800 ? 3 : 4) "," value(n, "null")
      print "ok 1000000"
    }'
  printf 'error 34 TooLarge\nok 2011-01-14 13:46:40.00000\nerror 34 TooLarge\nok 1000001\n'
} > large.replies
input=large.script wants "a million entries: run" 0 "$ts" large.volume run
same "a million entries" said large.replies
rm -f large.replies large.volume said
