# shellcheck shell=bash
# Series beside plain lists that awk keeps: irregular and regular ones, and two as one.

# Readings of a plain list, for the two tests below: an entry's line by its number, nothing where the list has none; and
# how many numbers there are. They want a function `line` of a number, `stamp_at` of a number, and `says`.
readings='
  function clip(from, to,   k, n, text) {
    for (k = from; k <= to; k++) if (line(k) != "") { text = text line(k) "\n"; n++ }
    says("Clip(\047s\047,\047" stamp_at(from) "\047,\047" stamp_at(to) "\047);", text "ok " n + 0)
    says("ClipGetCount(\047s\047,\047" stamp_at(from) "\047,\047" stamp_at(to) "\047);", "ok " n + 0)
  }
  function clip_count(from, most,   k, n, text) {
    for (k = from; k < count && n < most; k++) if (line(k) != "") { text = text line(k) "\n"; n++ }
    says("ClipCount(\047s\047,\047" stamp_at(from) "\047," most ");", text "ok " n + 0)
    n = 0
    text = ""
    for (k = from < count ? from : count - 1; k >= 0 && n < most; k--) if (line(k) != "") { text = line(k) "\n" text; n++ }
    says("ClipCount(\047s\047,\047" stamp_at(from) "\047," (0 - most) ");", text "ok " n + 0)
  }
  function has(k) { return k >= 0 && k < count && !gone[k] }
  function sums(from, to,   k, n, sum, first, last) {
    for (k = from; k <= to; k++) if (has(k)) { if (n++ == 0) first = k - 500; sum += k - 500; last = k - 500 }
    return n == 0 ? "null,0,null,null" : sum "," n "," first "," last
  }
  function fold(from, to,   list, range, h, folded, n, text) {
    list = "(\047sum($v),count($v),FIRST($v),last($v)\047,"
    range = "\047s\047,\047" stamp_at(from) "\047,\047" stamp_at(to) "\047);"
    says("AggregateRange" list range, stamp_at(from) ".00000 " sums(from, to) "\nok 1")
    for (h = int((from + an_hour - 1) / an_hour); h * an_hour <= to; h++) if (h % 3 != 2) {
      folded = sums(h * an_hour, h * an_hour + an_hour - 1)
      if (folded !~ /^null/) { text = text stamp_at(h * an_hour) ".00000 " folded "\n"; n++ }
    }
    says("AggregateBy" list "hours," range, text "ok " n + 0)
  }
  function nth(number,   k, n) {
    for (k = 0; k < count; k++) if (line(k) != "" && n++ == number) break
    says("GetNthElem(\047s\047," number ");", k < count ? line(k) "\nok 1" : "ok 0")
  }
  function read_some(seed,   k, from, width) {
    split("0 1 " (room - 1) " " room " " (room + 1) " " (2 * room), width, " ")
    for (k = 1; k <= 6; k++) {
      from = (seed * 37 + k * 101) % (count + 3)
      clip(from, from + width[k])
      clip_count(from, width[k])
      nth(from)
      fold(from, from + width[k])
    }
    fold(0, count + 2)
    fold(5, 4)
    clip(room, 2 * room - 1)
    clip(5, 4)
    nth(room - 1)
    nth(room)
  }'

# A series of many pages against a plain list, which awk keeps: filled in one order, read whole, run after run, and
# emptied in another one.
# chain FILL EMPTY COUNT ROOM TYPES VALUES: so many elements, so many of which a page has room for. The volume has just
# the charged pages.
chain() {
  local name="$3 elements of $4 a page, filled $1 and emptied $2" charge=$(($3 == 0 ? 0 : 2 * (($3 + $4 - 1) / $4) - 1))
  wants "$name: init" 0 "$ts" chain.volume init "$charge"
  awk -v fill="$1" -v empty="$2" -v count="$3" -v charge="$charge" -v room="$4" -v types="$5" -v values="$6" -v an_hour=60 "$readings"'
    function at(order, n) { return order == "rising" ? n : order == "falling" ? count - 1 - n : n * 137 % count }
    function stamp(m) { return sprintf("2011-01-%02d %02d:%02d:00", 1 + m / 1440, m / 60 % 24, m % 60) }
    function stamp_at(m) { return stamp(m) }
    function row(m) { return m - 500 values }
    function line(m) { return m < count && !gone[m] ? stamp(m) ".00000 " row(m) : "" }
    function says(statement, reply) { print statement > "chain.script"; print reply > "chain.replies" }
    function charged(n) { return n == 0 ? 0 : 2 * int((n + room - 1) / room) - 1 }
    BEGIN {
      says("CreateRowType(r, t datetime, v integer" types ");", "ok")
      says("TSContainerCreate(c, r, " charge ");", "ok")
      says("CreateCalendar(hours, \047startdate(2011-01-01 00:00:00), pattstart(2011-01-01 00:00:00), pattern({2 on,1 off},hour)\047);", "ok")
      says("TSCreateIrr(\047s\047, c);", "ok")
      for (n = 0; n < count; n++)
        says("InsElem(\047s\047,\047" stamp(at(fill, n)) "\047," row(at(fill, n)) ");", "ok " stamp(at(fill, n)) ".00000")
      for (n = 0; n < count; n++)
        says("GetElem(\047s\047,\047" stamp(n) "\047);", stamp(n) ".00000 " row(n) "\nok 1")
      says("TSContainerUsage(c);", "ok " charge " " charge)
      says("GetNelems(\047s\047);", "ok " count)
      for (n = 0; n < 7; n++) read_some(n)
      close("chain.script"); close("chain.replies")
      system("mv chain.script fill.script; mv chain.replies fill.replies")
      for (n = 0; n < count; n++) {
        m = at(empty, n)
        gone[m] = 1
        says("DelElem(\047s\047,\047" stamp(m) "\047);", "ok 1")
        if (n % 50 == 0) {
          last = ""
          for (k = 0; k < count; k++) if (!gone[k]) last = stamp(k) ".00000 " row(k)
          says("GetLastElem(\047s\047);", last == "" ? "ok 0" : last "\nok 1")
          for (k = 0; k < count && gone[k]; k++) {}
          says("GetFirstElem(\047s\047);", k == count ? "ok 0" : stamp(k) ".00000 " row(k) "\nok 1")
          read_some(n)
          says("TSContainerUsage(c);", "ok " charged(count - 1 - n) " " charge)
        }
      }
      for (n = 0; n < 100; n++) gone[n] = 0
      for (n = 0; n < 100; n++)
        says("PutElem(\047s\047,\047" stamp(n) "\047," row(n) ");", "ok " stamp(n) ".00000")
      says("DelClip(\047s\047,\047" stamp(7) "\047,\047" stamp(91) "\047);", "ok 85")
      for (n = 0; n < 100; n++)
        says("GetElem(\047s\047,\047" stamp(n) "\047);", n < 7 || n > 91 ? stamp(n) ".00000 " row(n) "\nok 1" : "ok 0")
      says("TSContainerUsage(c);", "ok " charged(15) " " charge)
      says("DropSeries(\047s\047);", "ok")
      says("TSContainerUsage(c);", "ok 0 " charge)
    }'
  input=fill.script wants "$name: filled" 0 "$ts" chain.volume run
  same "$name: as it was filled" said fill.replies
  input=chain.script wants "$name: emptied" 0 "$ts" chain.volume run
  same "$name: as it was emptied" said chain.replies
  rm chain.volume
}
wide=", p varchar(255), q varchar(255), u varchar(250)"
for fill in rising falling mixed; do
  for empty in rising falling mixed; do
    chain $fill $empty 300 5 "$wide" ",'p','','u'"
  done
done
chain mixed mixed 2000 290 "" ""
chain rising falling 2000 290 "" ""

# A regular series against a plain list, which awk keeps: each fifteenth minute is on, and every element is put
# somewhere in its interval. A page has cells for so many offsets.
# grid FILL EMPTY COUNT ROOM TYPES VALUES: so many elements.
grid() {
  local name="$3 offsets, $4 a page, filled $1 and emptied $2" charge=$((($3 + $4 - 1) / $4))
  wants "$name: init" 0 "$ts" grid.volume init "$charge"
  awk -v fill="$1" -v empty="$2" -v count="$3" -v charge="$charge" -v room="$4" -v types="$5" -v values="$6" -v an_hour=4 "$readings"'
    function at(order, n) { return order == "rising" ? n : order == "falling" ? count - 1 - n : n * 137 % count }
    function stamp_at(m) { return stamp(m, 0) }
    function line(m) { return m <= end ? stamp(m, 0) ".00000 " (gone[m] ? "none" : row(m)) : "" }
    function stamp(m, more) { return sprintf("2011-%02d-%02d %02d:%02d:%02d", 1 + int(m / 2688), 1 + int(m % 2688 / 96), m / 4 % 24, m % 4 * 15, more) }
    function row(m) { return m - 500 values }
    function says(statement, reply) { print statement > "grid.script"; print reply > "grid.replies" }
    function charged(  k, n) { n = 0; for (k = 0; k < count / room; k++) if (held[k] > 0) n++; return n }
    BEGIN {
      says("CreateRowType(r, t datetime, v integer" types ");", "ok")
      says("TSContainerCreate(c, r, " charge ");", "ok")
      says("CreateCalendar(q, \047startdate(2011-01-01 00:00:00), pattstart(2011-01-01 00:00:00), pattern({1 on,14 off},minute)\047);", "ok")
      says("CreateCalendar(hours, \047startdate(2011-01-01 00:00:00), pattstart(2011-01-01 00:00:00), pattern({2 on,1 off},hour)\047);", "ok")
      says("TSCreate(\047s\047, q, \0472011-01-01 00:00:30\047, c);", "ok 2011-01-01 00:00:00.00000")
      for (n = 0; n < count; n++) {
        m = at(fill, n)
        says("InsElem(\047s\047,\047" stamp(m, m % 60) "\047," row(m) ");", "ok " stamp(m, 0) ".00000")
        held[int(m / room)]++
      }
      for (n = 0; n < count; n++)
        says("GetElem(\047s\047,\047" stamp(n, 59) "\047);", stamp(n, 0) ".00000 " row(n) "\nok 1")
      says("TSContainerUsage(c);", "ok " charge " " charge)
      says("GetNelems(\047s\047);", "ok " count)
      end = count - 1
      for (n = 0; n < 7; n++) read_some(n)
      close("grid.script"); close("grid.replies")
      system("mv grid.script fill.script; mv grid.replies fill.replies")
      for (n = 0; n < count; n++) {
        m = at(empty, n)
        gone[m] = 1
        held[int(m / room)]--
        says("DelElem(\047s\047,\047" stamp(m, 7) "\047);", "ok 1")
        if (n % 50 == 0) {
          last = ""
          end = -1
          for (k = 0; k < count; k++) if (!gone[k]) { end = k; last = stamp(k, 0) ".00000 " row(k) }
          says("GetLastElem(\047s\047);", last == "" ? "ok 0" : last "\nok 1")
          for (k = 0; k < count && gone[k]; k++) {}
          says("GetFirstElem(\047s\047);", k == count ? "ok 0" : stamp(k, 0) ".00000 " row(k) "\nok 1")
          read_some(n)
          says("TSContainerUsage(c);", "ok " charged() " " charge)
        }
      }
      for (n = 0; n < 100; n++)
        says("PutElem(\047s\047,\047" stamp(n, 1) "\047," row(n) ");", "ok " stamp(n, 0) ".00000")
      says("DelClip(\047s\047,\047" stamp(7, 0) "\047,\047" stamp(91, 0) "\047);", "ok 85")
      for (n = 0; n < 100; n++)
        says("GetElem(\047s\047,\047" stamp(n, 0) "\047);", n < 7 || n > 91 ? stamp(n, 0) ".00000 " row(n) "\nok 1" : "ok 0")
      for (n = 0; n < 7; n++) held[int(n / room)]++
      for (n = 92; n < 100; n++) held[int(n / room)]++
      says("TSContainerUsage(c);", "ok " charged() " " charge)
      says("DelClip(\047s\047,\047" stamp(3, 1) "\047,\047" stamp(5, 59) "\047);", "ok 2")
      says("GetNelems(\047s\047);", "ok 13")
      says("DropSeries(\047s\047);", "ok")
      says("TSContainerUsage(c);", "ok 0 " charge)
    }'
  input=fill.script wants "$name: filled" 0 "$ts" grid.volume run
  same "$name: as it was filled" said fill.replies
  input=grid.script wants "$name: emptied" 0 "$ts" grid.volume run
  same "$name: as it was emptied" said grid.replies
  rm grid.volume
}
for fill in rising falling mixed; do
  for empty in rising mixed; do
    grid $fill $empty 300 5 "$wide" ",'p','','u'"
  done
done
grid mixed mixed 2000 677 "" ""

# Two series as one, and a series against itself, beside plain lists that awk keeps: quarter hours, every other day, and
# minutes that are multiples of 5 and of 7; five elements a page. Whether an element is there goes by its number.
# Where both are regular, what stands in an interval stands at each minute of it, or where both go by days at each day;
# else an element stands where its interval begins.
wants "joined series: init" 0 "$ts" joined.volume init 500
awk -v types="$wide" -v values=",'p','','u'" '
  function says(statement, reply) { print statement > "joined.script"; print reply > "joined.replies" }
  function stamp(s) { return sprintf("2011-01-%02d %02d:%02d:00", 3 + s / 1440, s / 60 % 24, s % 60) }
  function has(k, n) { return n >= 0 && n <= last[k] && (n * n + size[k]) % 7 != 2 }
  function number(k, s) { return s % size[k] == 0 ? s / size[k] : -1 }
  function row(k, s, around,   n) {
    n = around && k == "d" && s % size[k] < 1440 ? int(s / size[k]) : number(k, s)
    return has(k, n) ? n values : ""
  }
  function both(a, b, from, to, routine,   s, x, y, text, n, around) {
    around = a ~ /[qd]/ && b ~ /[qd]/
    for (s = from; s <= to; s++) {
      if (a b == "dd" && s % 1440 != 0) continue
      x = row(a, s, around)
      y = row(b, s, around)
      if (routine == "Union" ? x != "" || y != "" : x != "" && y != "") {
        text = text stamp(s) ".00000 " (x == "" ? nulls : x) "," (y == "" ? nulls : y) "\n"
        n++
      }
    }
    says(routine "(\047" a "\047,\047" b "\047,\047" stamp(from) "\047,\047" stamp(to) "\047);", text "ok " n + 0)
  }
  function lag(k, by,   i, n, text) {
    for (i = 0; i <= last[k]; i++) if (has(k, i - by)) { text = text stamp(i * size[k]) ".00000 " i - by values "\n"; n++ }
    says("Lag(\047" k "\047," by ");", text "ok " n + 0)
  }
  BEGIN {
    size["q"] = 15; size["d"] = 2880; size["x"] = 5; size["y"] = 7
    last["q"] = 287; last["d"] = 1; last["x"] = 863; last["y"] = 616
    nulls = "null,null,null,null"
    dates = "startdate(2011-01-03 00:00:00), pattstart(2011-01-03 00:00:00)"
    says("CreateRowType(r, t datetime, v integer" types ");", "ok")
    says("TSContainerCreate(c, r, 500);", "ok")
    says("CreateCalendar(qs, \047" dates ", pattern({1 on,14 off},minute)\047);", "ok")
    says("CreateCalendar(ds, \047" dates ", pattern({1 on,1 off},day)\047);", "ok")
    for (k in size) {
      if (k ~ /[qd]/) says("TSCreate(\047" k "\047, " k "s, \0472011-01-03 00:00:00\047, c);", "ok 2011-01-03 00:00:00.00000")
      else says("TSCreateIrr(\047" k "\047, c);", "ok")
    }
    for (n = 0; n <= 863; n++) for (k in size) if (has(k, n * 137 % (last[k] + 1)) && n <= last[k]) {
      m = n * 137 % (last[k] + 1)
      says("InsElem(\047" k "\047,\047" stamp(m * size[k]) "\047," m values ");", "ok " stamp(m * size[k]) ".00000")
    }
    split("q d x y", keys, " ")
    for (i = 1; i <= 4; i++) for (j = 1; j <= 4; j++) {
      both(keys[i], keys[j], 0, 299, "Union")
      both(keys[i], keys[j], 1430, 1450, "Union")
      both(keys[i], keys[j], 2870 + i, 3000 + j, "Union")
      both(keys[i], keys[j], 9, 8, "Union")
      both(keys[i], keys[j], 0, 5000, "Intersect")
      both(keys[i], keys[j], 2875, 2885, "Intersect")
    }
    for (i = 1; i <= 2; i++) for (by = -3; by <= 3; by++) lag(keys[i], by)
    lag("q", 250)
    lag("q", -287)
    lag("q", 288)
  }'
input=joined.script wants "joined series: run" 0 "$ts" joined.volume run
same "joined series" said joined.replies
rm joined.volume
