# shellcheck shell=bash
# A volume is damaged by hand, a byte at a time, and judged: which page is told, and that nothing changes.

# judged NAME VOLUME STATUS LINE: a check ends so and says this last, and the volume stays.
judged() {
  cp "$2" before
  wants "$1" "$3" "$ts" "$2" check
  tail -n 1 said > last
  echo "$4" > wanted
  same "$1: what is said" last wanted
  same "$1: the volume" before "$2"
}
wants "a store that is checked: init" 0 "$ts" checked.volume init 8
input=$examples/checked_store.script wants "a store that is checked: run" 0 "$ts" checked.volume run
judged "a store with records in its journal" checked.volume 0 "ok 3 of 8"
cat > report << REPORT
container hourly charge 1 of 3 series 1
container notes charge 3 of 4 series 2
ok 3 of 8
REPORT
same "its whole report" said report
wants "its pages come home" 0 "$ts" checked.volume run
judged "the same at rest" checked.volume 0 "ok 3 of 8"
same "its report is the same" said report

# Each of these bytes breaks one page: the place, the bytes, the page.
while read -r place bytes page; do
  cp checked.volume harmed.volume
  write_at harmed.volume "$place" "$bytes"
  judged "damaged at $place" harmed.volume 6 "bad page $page"
done << BYTES
0 \000 0
8 \011 0
4096 GATEOPEN\000\000\000\004 1
$((257 * 4096)) \003 257
$((833 * 4096)) \002 833
$((834 * 4096)) \003 834
$((930 * 4096)) \003 930
$((932 * 4096 + 1)) \377 932
$((937 * 4096)) \002 937
BYTES

# Two series of one key: the page is the same, so the second slot breaks it. A file that was cut, or made longer.
cp checked.volume harmed.volume
truncate -s -1 harmed.volume
judged "a file that was cut" harmed.volume 6 "bad page 0"
truncate -s +4097 harmed.volume
judged "a file that was made longer" harmed.volume 6 "bad page 0"
rm harmed.volume

# A full disk takes no report.
if [ -c /dev/full ]; then
  "$ts" checked.volume check > /dev/full 2> complained
  [ $? -eq 4 ] && passed=$((passed + 1)) || { failed=$((failed + 1)); echo "FAILED: a report that isn't taken"; }
fi
