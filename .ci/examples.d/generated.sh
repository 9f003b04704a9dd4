# shellcheck shell=bash
# The generated script.

# The generated script twice, each time on a new volume: the same bytes, which are the sums that awk makes of the same
# numbers.
awk -v count=5000 -v seed=7 '
  function next_of(x) { return (1103515245 * int(x / 65536) % 2147483648 * 65536 + 1103515245 * (x % 65536) + 12345) % 2147483648 }
  function stamp(seconds,  day, month) {
    day = 3 + int(seconds / 86400); month = 1
    if (day > 31) { day -= 31; month = 2 }
    if (month == 2 && day > 28) { day -= 28; month = 3 }
    return sprintf("2011-%02d-%02d %02d:%02d:%02d", month, day, seconds % 86400 / 3600, seconds % 3600 / 60, seconds % 60)
  }
  function put(key, seconds) { print "PutElem(\047" key "\047,\047" stamp(seconds) "\047," v ");" > "edits.script" }
  BEGIN {
    for (i = 1; i <= count; i++) {
      seed = next_of(seed)
      v = seed % 1000
      minute = int(seed / 1000) % 100000
      put(i % 2 == 0 ? "geni" : "genr", i % 2 == 0 ? minute : minute * 60)
      if (i % 2 == 0) { placed++; sum += v; continue }
      if (!(minute in at)) minutes++
      regular += v - at[minute]
      at[minute] = v
    }
    print "2011-01-03 00:00:00.00000 " regular "," minutes "\nok 1"
    print "2011-01-03 00:00:00.00000 " sum "," placed "\nok 1"
    print "done " count + 8 " 0"
  }' > generated.replies
for turn in first second; do
  wants "the $turn generated script: init" 0 "$ts" generated.volume init 4096
  wants "the $turn generated script" 0 "$ts" generated.volume gen 5000 7
  same "the $turn generated script: replies" said generated.replies
  [ $turn = second ] || rm generated.volume
done
# What is there is refused, and the edits go on: the regular series has its element again, the irregular one has it
# beside itself.
wants "generated twice: init" 0 "$ts" twice.volume init 4096
for turn in first second; do
  wants "generated twice: the $turn" 0 "$ts" twice.volume gen 2 1
done
printf '%s\n' '2011-01-03 00:00:00.00000 590,1' 'ok 1' '2011-01-03 00:00:00.00000 1150,2' 'ok 1' 'done 4 6' > wanted
same "generated twice: replies" said wanted
cat > some.script << 'SCRIPT'
ListSeries(genk);
Clip('genr','2012-01-01 00:00:00','2011-01-01 00:00:00');
GetLastElem('geni');
GetFirstElem('genr');
SCRIPT
cat > wanted << 'REPLIES'
'geni' irregular 2
'genr' regular 1
ok 2
ok 0
2011-01-03 21:30:01.00001 575
ok 1
2011-01-05 10:47:00.00000 590
ok 1
REPLIES
input=some.script wants "generated twice: run" 0 "$ts" twice.volume run
same "generated twice: what it leaves" said wanted
rm twice.volume
{
  echo "CreateRowType(gent, t datetime, v integer);"
  echo "CreatePattern(genp, '{1 on},minute');"
  echo "CreateCalendar(genc, 'startdate(2011-01-03 00:00:00), pattstart(2011-01-03 00:00:00), pattname(genp)');"
  echo "TSContainerCreate(genk, gent, 4096);"
  echo "TSCreate('genr', genc, '2011-01-03 00:00:00', genk);"
  echo "TSCreateIrr('geni', genk);"
  cat edits.script
  echo "AggregateRange('sum(\$v),count(\$v)', 'genr', '2011-01-03 00:00:00', '2012-01-01 00:00:00');"
  echo "AggregateRange('sum(\$v),count(\$v)', 'geni', '2011-01-03 00:00:00', '2012-01-01 00:00:00');"
} > statements.script
wants "the generated script as statements: init" 0 "$ts" statements.volume init 4096
input=statements.script wants "the generated script as statements" 0 "$ts" statements.volume run
tail -n 4 said > last.replies
head -n 4 generated.replies > next.replies
same "the generated script as statements: replies" last.replies next.replies
same "the generated script as statements: the volume" statements.volume generated.volume
rm statements.volume
echo "GetNelems('geni'); AggregateRange('sum(\$v),count(\$v)','genr','2011-01-03 00:00:00','2012-01-01 00:00:00');" > generated.script
{ echo "ok 2500"; head -n 2 generated.replies; } > next.replies
input=generated.script wants "a generated volume: run" 0 "$ts" generated.volume run
same "a generated volume: what it holds" said next.replies
rm generated.volume
