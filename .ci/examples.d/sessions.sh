# shellcheck shell=bash
# Sessions: sections, turns, snapshots, commits and their conflicts, statuses; random schedules beside lists of awk.

# Two series without elements, from which most of these tests begin.
wants "sessions: init" 0 "$ts" two_series.volume init 8
echo "CreateRowType(rd, t datetime, v integer);TSContainerCreate(c1, rd, 8);TSCreateIrr('x', c1);TSCreateIrr('y', c1);" > some.script
input=some.script wants "sessions: two series" 0 "$ts" two_series.volume run
wants "sessions: their journal is settled" 0 "$ts" two_series.volume run

# The numbers of a seed, and whose turn it is. `picks` has the next number.
turns='
  function next_of(x) { return (1103515245 * int(x / 65536) % 2147483648 * 65536 + 1103515245 * (x % 65536) + 12345) % 2147483648 }
  function begin_turns(seed) { drawn = seed % 2147483648 }
  function whose_turn(left, count,   who, m, waiting) {
    drawn = next_of(drawn)
    m = 0
    for (who = 1; who <= count; who++) if (left[who] > 0) waiting[m++] = who
    return waiting[int(drawn / 1000) % m]
  }'

# in_days: Dnn stands for the beginning of that day, in statements and in replies, and ` / ` for the end of a line.
in_days() {
  sed -E "s/'D([0-9]{2})'/'2011-01-\1 00:00:00'/g; s/\bD([0-9]{2})\b/2011-01-\1 00:00:00.00000/g; s: / :\n:g"
}

# says NAME STATUS SEED SOURCE REPLIES [VOLUME]: of a source, as printf has it, these replies are said on a copy of the
# volume: for each I REPLY.
says() {
  local name=$1 status=$2 seed=$3
  cp "${6:-two_series.volume}" sessions.volume
  printf '%b' "$4" | in_days > sessions.source
  printf '%b' "$5" | sed -E 's/^([0-9]+) /session \1\n/' | in_days > sessions.replies
  input=sessions.source wants "$name" "$status" "$ts" sessions.volume sessions "$seed"
  same "$name: replies" said sessions.replies
}

# plays NAME [VOLUME]: turns, a line for each, `I STATEMENT -> REPLY`. Sections are made of them, and the least seed is
# taken whose turns are these. On a copy of the volume each is answered so.
plays() {
  local name=$1 seed
  cp "${2:-two_series.volume}" sessions.volume
  seed=$(awk "$turns"'
    {
      who = $1
      at = index($0, " -> ")
      script[who] = script[who] substr($0, length(who) + 2, at - length(who) - 2) "\n"
      print "session " who "\n" substr($0, at + 4) > "sessions.raw_replies"
      turn[NR] = who
      total[who]++
      if (who > count) count = who
    }
    function is_this(seed,   j, who, left) {
      for (who = 1; who <= count; who++) left[who] = total[who]
      begin_turns(seed)
      for (j = 1; j <= NR; j++) {
        if (whose_turn(left, count) != turn[j]) return 0
        left[turn[j]]--
      }
      return 1
    }
    END {
      for (who = 1; who <= count; who++) printf "%s%s", who == 1 ? "" : "--session\n", script[who] > "sessions.raw_source"
      for (seed = 0; seed < 3000000; seed++) if (is_this(seed)) break
      print seed
    }')
  in_days < sessions.raw_source > sessions.source
  in_days < sessions.raw_replies > sessions.replies
  input=sessions.source wants "$name" 0 "$ts" sessions.volume sessions "$seed"
  same "$name: replies by seed $seed" said sessions.replies
}

# leaves NAME STATEMENTS REPLIES: a run then says these.
leaves() {
  echo "$2" | in_days > some.script
  echo "$3" | in_days > some.replies
  input=some.script wants "$1: a run behind it" 0 "$ts" sessions.volume run
  same "$1: what it leaves" said some.replies
  wants "$1: check" 0 "$ts" sessions.volume check
}

all_of_x="Clip('x','D01','D31');"
all_of_both="$all_of_x Clip('y','D01','D31');"

# The first of two transactions that edit one series is committed.
says "a conflict" 0 1 "Begin; InsElem('x','D03',1); Commit;\n--session\nBegin; InsElem('x','D04',2); Commit;\n" \
  "2 ok\n2 ok D04\n1 ok\n1 ok D03\n2 ok 1\n1 commit 1 / error 53 Conflict\n"
leaves "a conflict" "$all_of_x" "D04 2 / ok 1"
says "no conflict" 0 1 "Begin; InsElem('x','D03',1); Commit;\n--session\nBegin; InsElem('y','D04',2); Commit;\n" \
  "2 ok\n2 ok D04\n1 ok\n1 ok D03\n2 ok 1\n1 ok 1\n"
leaves "no conflict" "$all_of_both" "D03 1 / ok 1 / D04 2 / ok 1"
says "a statement outside of a transaction is a commit" 0 1 \
  "InsElem('x','D04',2);\n--session\nBegin; InsElem('x','D03',1); Commit;\n" \
  "2 ok\n2 ok D03\n1 ok D04\n2 commit 1 / error 53 Conflict\n"
leaves "a statement outside of a transaction is a commit" "$all_of_x" "D04 2 / ok 1"

# It sees the store of its Begin, with its own statements.
says "a transaction sees no commit behind its Begin" 0 1 \
  "InsElem('x','D04',2);\n--session\nBegin; InsElem('y','D03',1); GetNelems('x'); Commit; GetNelems('x');\n" \
  "2 ok\n2 ok D03\n1 ok D04\n2 ok 0\n2 ok 1\n2 ok 1\n"
leaves "a transaction sees no commit behind its Begin" "$all_of_x" "D04 2 / ok 1"

# The container is only named by what stands in the way, so that no commit is said.
wants "a commit is refused by what was committed last: init" 0 "$ts" ten_pages.volume init 10
answers "a commit is refused by what was committed last: two series" ten_pages.volume << 'ROWS'
CreateRowType(rd, t datetime, v integer);TSContainerCreate(c1, rd, 8); -> ok / ok
TSCreateIrr('x', c1);TSCreateIrr('y', c1); -> ok / ok
ROWS
answers "a commit is refused by what was committed last: a container" ten_pages.volume << 'ROWS'
TSContainerCreate(c2, rd, 2); -> ok
ROWS
says "a commit is refused by what was committed last" 0 1 \
  "TSCreateIrr('z', c2);\n--session\nBegin; TSContainerDestroy(c2); Commit;\n" \
  "2 ok\n2 ok\n1 ok\n2 error 32 InUse\n" ten_pages.volume
rm ten_pages.volume

# marks COUNT: so many lines that end a section.
marks() {
  for _number in $(seq "$1"); do printf -- '--session\\n'; done
}

# Sections: empty ones, sixteen, seventeen.
says "no section has a statement" 0 1 "" ""
says "sixteen empty sections" 0 1 "$(marks 15)" ""
says "seventeen empty sections" 9 1 "$(marks 16)" ""
leaves "seventeen empty sections" "$all_of_both" "ok 0 / ok 0"
insertion="InsElem('x','2011-01-04 00:00:00',2);\n"
says "seventeen sections begin none" 9 1 "$insertion$(marks 16)" ""
leaves "seventeen sections begin none" "$all_of_x" "ok 0"
says "seventeen sections begin none: sixteen do" 0 1 "$insertion$(marks 15)" "1 ok D04\n"
says "seventeen sections, of which statements stand in two" 9 1 "InsElem('x','D03',1);\n$(marks 16)InsElem('x','D04',1);" ""
leaves "seventeen sections, of which statements stand in two" "$all_of_both" "ok 0 / ok 0"
says "the sixteenth section" 0 7 "$(marks 15)GetNelems('x');" "16 ok 0\n"
says "empty sections between others" 0 2 "--session\n--session\nGetNelems('x');GetNelems('x');\n--session\n\n \t;\n--session\n" \
  "3 ok 0\n3 ok 0\n"
says "a mark without a line feed" 0 1 "GetNelems('x');\n--session" "1 ok 0\n"
says "a mark with a line feed" 0 1 "GetNelems('x');\n--session\n" "1 ok 0\n"
says "sixteen marks, the last without a line feed" 9 1 "$(marks 15)--session" ""
says "fifteen marks, the last without a line feed" 0 1 "$(marks 14)--session" ""

# What is no such line is text, and a line within quotes is one.
for mark in '--session\r' '--session ' ' --session' '--sessions' '-session' '--Session' '---session' '--session--session'; do
  says "no mark: $mark" 0 1 "GetNelems('x');\n$mark\nGetNelems('y');GetNelems('x');\n" "1 ok 0\n1 error 1 Syntax\n1 ok 0\n"
done
says "no mark at the end: a carriage return" 0 1 "GetNelems('x');\n--session\r" "1 ok 0\n1 error 3 Unended\n"
says "a mark within a statement" 0 1 "GetNelems(\n--session\nGetNelems('x');" "2 ok 0\n1 error 3 Unended\n"
says "a mark within quotes" 0 1 "GetNelems('x\n--session\n'');GetNelems('x');\n" "2 error 1 Syntax\n2 ok 0\n1 error 3 Unended\n"
says "empty lines around a mark" 0 1 "InsElem('x','D03',1);\n\n--session\n\nInsElem('x','D04',1)\n;" \
  "2 ok D04\n1 ok D03\n"

# The last statement without an end, of each section; one that is too long, which swallows nothing of the next section.
says "the last statement has no end" 0 1 "GetNelems('x');GetNelems('x')\n--session\nGetNelems('y')" \
  "2 error 3 Unended\n1 ok 0\n1 error 3 Unended\n"
long=$(printf '%065536d' 0 | tr 0 ' ')
says "a statement that is too long" 0 1 "GetNelems('x')$long;GetNelems('x');\n--session\nGetNelems('x');" \
  "2 ok 0\n1 error 2 TooLong\n1 ok 0\n"
says "a statement that is too long, without an end" 0 1 "GetNelems('x')$long\n--session\nGetNelems('x');" \
  "2 ok 0\n1 error 2 TooLong\n"
says "the longest statement" 0 1 "GetNelems('x')${long:15};\n--session\nGetNelems('x')${long:14};" \
  "2 error 2 TooLong\n1 ok 0\n"

# The longest source, and a byte more. A source that is longer is 8, also where it has too many sections or no end.
blanks_to() {
  printf "%0$1d" 0 | tr 0 ' '
}
says "1048576 bytes" 0 1 "GetNelems('x');$(blanks_to $((1048576 - 15)))" "1 ok 0\n"
says "1048577 bytes" 8 1 "InsElem('x','D03',1);$(blanks_to $((1048577 - 37)))" ""
holds "1048577 bytes: so many" [ "$(wc -c < sessions.source)" -eq 1048577 ]
leaves "1048577 bytes" "$all_of_x" "ok 0"
says "1048576 bytes, the last of them a mark" 0 1 "GetNelems('x');$(blanks_to $((1048576 - 26)))\n--session\n" "1 ok 0\n"
holds "1048576 bytes: so many" [ "$(wc -c < sessions.source)" -eq 1048576 ]
says "seventeen sections of 1048577 bytes" 8 1 "$(marks 16)$(blanks_to $((1048577 - 160)))" ""
says "a byte past the limit begins none" 8 1 "$insertion$(marks 1)$(blanks_to $((1048577 - 48)))" ""
holds "a byte past the limit: so many" [ "$(wc -c < sessions.source)" -eq 1048577 ]
leaves "a byte past the limit begins none" "$all_of_x" "ok 0"
says "a byte past the limit begins none, with more than 16 sections too" 8 1 \
  "$insertion$(marks 16)$(blanks_to $((1048577 - 198)))" ""
holds "a byte past the limit, with more than 16 sections too: so many" [ "$(wc -c < sessions.source)" -eq 1048577 ]
leaves "a byte past the limit begins none, with more than 16 sections too" "$all_of_x" "ok 0"
says "a byte past the limit begins none: the byte before does" 0 1 \
  "$insertion$(marks 1)$(blanks_to $((1048576 - 48)))" "1 ok D04\n"
holds "the byte before the limit: so many" [ "$(wc -c < sessions.source)" -eq 1048576 ]
cp two_series.volume sessions.volume
wants "a source without an end" 8 bash -c "yes \"InsElem('x','2011-01-03 00:00:00',1);\" | exec \"\$0\" sessions.volume sessions 1" "$ts"
same "a source without an end: replies" said nothing
leaves "a source without an end" "$all_of_x" "ok 0"

# Rolling sets aren't there, in a transaction and outside.
rolling="RollingCreate('k', days, 'D03', c1, 2);RollingPut('k','D03',1);RollingClip('k','D01','D31');RollingDrop('k');"
echo "CreateCalendar(days, 'startdate(2011-01-03 00:00:00), pattstart(2011-01-03 00:00:00), pattern({1 on},day)');$rolling" |
  in_days > some.script
printf 'ok\nok D03\nok D03\nD03 1 / ok 1\nok 1\n' | in_days > some.replies
cp two_series.volume rolled_alone.volume
input=some.script wants "rolling sets in a run" 0 "$ts" rolled_alone.volume run
same "rolling sets in a run: replies" said some.replies
syntax_line='1 error 1 Syntax\n'
says "rolling sets in sessions" 0 1 "$rolling Begin;InsElem('x','D03',1);$rolling Commit;" \
  "$syntax_line$syntax_line$syntax_line${syntax_line}1 ok\n1 ok D03\n$syntax_line$syntax_line$syntax_line${syntax_line}1 ok 1\n" \
  rolled_alone.volume
rm rolled_alone.volume

# A transaction reads what was committed at its Begin, with what it made itself; a reading outside what was committed last.
plays "a snapshot" << 'TURNS'
1 Begin; -> ok
2 InsElem('x','D03',1); -> ok D03
1 GetNelems('x'); -> ok 0
2 GetNelems('x'); -> ok 1
1 InsElem('y','D04',2); -> ok D04
2 GetNelems('y'); -> ok 0
1 Clip('y','D01','D31'); -> D04 2 / ok 1
1 Commit; -> ok 1
2 Clip('y','D01','D31'); -> D04 2 / ok 1
1 Clip('x','D01','D31'); -> D03 1 / ok 1
TURNS
leaves "a snapshot" "$all_of_both" "D03 1 / ok 1 / D04 2 / ok 1"
plays "a transaction that is rolled back" << 'TURNS'
1 Begin; -> ok
1 InsElem('x','D03',1); -> ok D03
2 InsElem('x','D04',2); -> ok D04
1 Rollback; -> ok
1 Clip('x','D01','D31'); -> D04 2 / ok 1
2 Begin; -> ok
1 InsElem('x','D05',3); -> ok D05
2 InsElem('x','D06',4); -> ok D06
2 Commit; -> commit 2 / error 53 Conflict
2 GetNelems('x'); -> ok 2
TURNS
leaves "a transaction that is rolled back" "$all_of_x" "D04 2 / D05 3 / ok 2"
plays "a transaction that is open at the end" << 'TURNS'
1 Begin; -> ok
1 InsElem('x','D03',1); -> ok D03
2 InsElem('x','D04',2); -> ok D04
TURNS
leaves "a transaction that is open at the end" "$all_of_x" "D04 2 / ok 1"

# Which commit is named: the first behind the Begin that wrote what the transaction writes or names.
plays "the first commit in the way" << 'TURNS'
2 InsElem('x','D03',1); -> ok D03
1 Begin; -> ok
2 InsElem('y','D03',1); -> ok D03
1 InsElem('x','D04',2); -> ok D04
2 InsElem('x','D05',3); -> ok D05
2 InsElem('x','D06',4); -> ok D06
1 Commit; -> commit 3 / error 53 Conflict
TURNS
plays "an empty Commit is one, and so is a DelElem of nothing" << 'TURNS'
1 Begin; -> ok
2 Begin; -> ok
2 Commit; -> ok 0
1 InsElem('x','D04',2); -> ok D04
2 DelElem('x','D03'); -> ok 0
1 Commit; -> commit 2 / error 53 Conflict
2 Begin; -> ok
1 Begin; -> ok
2 DelElem('x','D03'); -> ok 0
1 InsElem('x','D04',2); -> ok D04
2 Commit; -> ok 1
1 Commit; -> commit 3 / error 53 Conflict
TURNS
plays "a refused Commit is none, nor is a reading, nor what is refused" << 'TURNS'
1 Begin; -> ok
2 Begin; -> ok
3 Begin; -> ok
1 InsElem('x','D03',1); -> ok D03
2 InsElem('x','D04',2); -> ok D04
3 InsElem('y','D05',3); -> ok D05
1 Commit; -> ok 1
2 Commit; -> commit 1 / error 53 Conflict
2 GetNelems('y'); -> ok 0
2 InsElem('x','D03',9); -> error 23 Duplicate
2 InsElem('y','D03',9); -> ok D03
3 Commit; -> commit 2 / error 53 Conflict
TURNS
leaves "a refused Commit is none, nor is a reading, nor what is refused" "$all_of_both" "D03 1 / ok 1 / D03 9 / ok 1"
plays "what a transaction reads, and what it is refused, is in nobody's way" << 'TURNS'
1 Begin; -> ok
1 GetNelems('x'); -> ok 0
1 UpdElem('x','D03',9); -> error 24 Missing
2 InsElem('x','D03',1); -> ok D03
1 InsElem('y','D03',2); -> ok D03
1 Commit; -> ok 1
TURNS
plays "an edit that changes nothing guards what is read" << 'TURNS'
1 Begin; -> ok
1 GetNelems('x'); -> ok 0
1 DelElem('x','D31'); -> ok 0
2 InsElem('x','D03',1); -> ok D03
1 InsElem('y','D03',2); -> ok D03
1 Commit; -> commit 1 / error 53 Conflict
TURNS
plays "begun again" << 'TURNS'
1 Begin; -> ok
2 InsElem('x','D03',1); -> ok D03
1 InsElem('x','D03',2); -> ok D03
1 Commit; -> commit 1 / error 53 Conflict
1 Begin; -> ok
1 InsElem('x','D03',2); -> error 23 Duplicate
1 UpdElem('x','D03',2); -> ok D03
1 Commit; -> ok 1
2 Clip('x','D01','D31'); -> D03 2 / ok 1
TURNS

# What is named: a container, a calendar, a pattern in a calendar's text, patterns that are joined. It isn't written by
# who names it, and things of one name and two kinds are two.
cp two_series.volume definitions.volume
cat > some.script << 'SCRIPT'
TSContainerDestroy(c1);DropSeries('x');DropSeries('y');TSContainerDestroy(c1);
TSContainerCreate(c1, rd, 4);TSContainerCreate(c2, rd, 4);TSCreateIrr('x', c1);TSCreateIrr('c2', c1);
CreatePattern(p1, '{1 on},day');CreatePattern(p2, '{1 on,1 off},day');
CreateCalendar(days, 'startdate(2011-01-03 00:00:00), pattstart(2011-01-03 00:00:00), pattern({1 on},day)');
SCRIPT
printf 'error 32 InUse\nok\nok\nok\nok\nok\nok\nok\nok\nok\nok\n' > some.replies
input=some.script wants "definitions for sessions" 0 "$ts" definitions.volume run
same "definitions for sessions: replies" said some.replies
plays "a container that is named is destroyed" definitions.volume << 'TURNS'
1 Begin; -> ok
1 TSCreateIrr('z', c2); -> ok
2 TSContainerDestroy(c2); -> ok
1 Commit; -> commit 1 / error 53 Conflict
TURNS
plays "a container that is destroyed is in use by then" definitions.volume << 'TURNS'
1 Begin; -> ok
1 TSContainerDestroy(c2); -> ok
2 TSCreateIrr('z', c2); -> ok
1 Commit; -> error 32 InUse
2 InsElem('z','D03',1); -> ok D03
1 TSContainerDestroy(c2); -> error 32 InUse
TURNS
leaves "a container that is destroyed is in use by then" "ListSeries(c2);" "'z' irregular 1 / ok 1"
plays "two who name a container" definitions.volume << 'TURNS'
1 Begin; -> ok
2 Begin; -> ok
1 TSCreateIrr('z', c2); -> ok
2 TSCreateIrr('w', c2); -> ok
1 Commit; -> ok 1
2 Commit; -> ok 1
TURNS
leaves "two who name a container" "ListSeries(c2);" "'w' irregular 0 / 'z' irregular 0 / ok 2"
plays "a container and a series of one name" definitions.volume << 'TURNS'
1 Begin; -> ok
1 InsElem('c2','D03',1); -> ok D03
2 TSContainerDestroy(c2); -> ok
1 Commit; -> ok 1
TURNS
plays "a pattern that a calendar's text names" definitions.volume << 'TURNS'
1 Begin; -> ok
1 CreateCalendar(k1, 'startdate(2011-01-03 00:00:00), pattstart(2011-01-03 00:00:00), pattname(p1)'); -> ok
2 DropPattern(p1); -> ok
1 Commit; -> commit 1 / error 53 Conflict
TURNS
plays "a pattern that no calendar's text names" definitions.volume << 'TURNS'
1 Begin; -> ok
1 CreateCalendar(k1, 'startdate(2011-01-03 00:00:00), pattstart(2011-01-03 00:00:00), pattname(p1)'); -> ok
2 DropPattern(p2); -> ok
1 Commit; -> ok 1
TURNS
plays "patterns that are joined" definitions.volume << 'TURNS'
1 Begin; -> ok
1 AndOp(pattern, p3, p1, p2); -> ok
2 DropPattern(p2); -> ok
1 Commit; -> commit 1 / error 53 Conflict
TURNS
plays "a calendar that a series names" definitions.volume << 'TURNS'
1 Begin; -> ok
1 TSCreate('g', days, 'D03', c2); -> ok D03
2 DropCalendar(days); -> ok
1 Commit; -> commit 1 / error 53 Conflict
TURNS
plays "a name that is taken by then" definitions.volume << 'TURNS'
1 Begin; -> ok
1 TSCreateIrr('z', c2); -> ok
2 TSCreateIrr('z', c1); -> ok
1 Commit; -> commit 1 / error 53 Conflict
TURNS
plays "a name that was taken and is free again" definitions.volume << 'TURNS'
1 Begin; -> ok
1 TSCreateIrr('z', c2); -> ok
2 TSCreateIrr('z', c1); -> ok
2 DropSeries('z'); -> ok
1 Commit; -> commit 1 / error 53 Conflict
TURNS

# What room there was at the Begin may be taken at the Commit; the first refusal is said, alone, and nothing is left of
# the transaction.
plays "pages that were free are granted by then" definitions.volume << 'TURNS'
1 TSContainerDestroy(c2); -> ok
1 Begin; -> ok
1 InsElem('x','D03',1); -> ok D03
1 TSContainerCreate(c3, rd, 4); -> ok
2 TSContainerCreate(c4, rd, 1); -> ok
1 GetNelems('x'); -> ok 1
1 Commit; -> error 31 VolumeFull
1 GetNelems('x'); -> ok 0
2 TSContainerCreate(c3, rd, 4); -> error 31 VolumeFull
2 TSContainerCreate(c3, rd, 3); -> ok
TURNS
cat > some.script << 'SCRIPT'
TSContainerDestroy(c2);CreateRowType(wide, t datetime, p varchar(255), q varchar(255), r varchar(255));
TSContainerCreate(one, wide, 1);TSCreateIrr('v', one);TSCreateIrr('w', one);
SCRIPT
input=some.script wants "a container of one page" 0 "$ts" definitions.volume run
plays "a container of one page" definitions.volume << 'TURNS'
1 Begin; -> ok
2 Begin; -> ok
1 InsElem('x','D03',1); -> ok D03
1 InsElem('v','D03','','',null); -> ok D03
2 InsElem('w','D03','','',null); -> ok D03
2 Commit; -> ok 1
1 Commit; -> error 30 ContainerFull
1 Commit; -> error 50 NotOpen
TURNS
leaves "a container of one page" "GetNelems('x');GetNelems('v');GetNelems('w');TSContainerUsage(one);" "ok 0 / ok 0 / ok 1 / ok 1 1"
rm definitions.volume

# Each session has its own transaction.
plays "not open, and open already" << 'TURNS'
1 Begin; -> ok
2 Commit; -> error 50 NotOpen
2 Rollback; -> error 50 NotOpen
1 Begin; -> error 51 AlreadyOpen
2 Begin; -> ok
1 Rollback; -> ok
1 Rollback; -> error 50 NotOpen
2 Begin; -> error 51 AlreadyOpen
2 Commit; -> ok 0
2 Commit; -> error 50 NotOpen
TURNS

# in_turns COUNT SEED: the replies of so many sessions, a line for each in files replies_of_1 and on, as the turns of the
# seed have them.
in_turns() {
  awk -v count="$1" -v seed="$2" "$turns"'
    BEGIN {
      for (who = 1; who <= count; who++)
        while ((getline line < ("replies_of_" who)) > 0) { reply[who, ++total[who]] = line; all++ }
      for (who = 1; who <= count; who++) left[who] = total[who]
      begin_turns(seed)
      for (; all > 0; all--) {
        who = whose_turn(left, count)
        print "session " who "\n" reply[who, total[who] - left[who]-- + 1]
      }
    }' | in_days
}

# Full transactions: of two sessions, the 33rd statement that writes of each, and 32 in each of sixteen views.
for who in 1 2; do
  key=$([ $who -eq 1 ] && echo x || echo y)
  {
    echo Begin\;
    for _number in $(seq 34); do echo "DelElem('$key','D03');"; done
    echo "GetElem('no series','D03');Begin;RollingDrop('k');Delete;GetNelems('$key');Commit;DelElem('$key','D03');"
  } | in_days > "section_$who"
  {
    echo ok
    for _number in $(seq 32); do echo ok 0; done
    printf '%s\n' 'error 52 TransactionFull' 'error 52 TransactionFull' 'error 10 UnknownName' 'error 51 AlreadyOpen' \
      'error 1 Syntax' 'error 1 Syntax' 'ok 0' 'ok 32' 'ok 0'
  } > "replies_of_$who"
done
for seed in 1 2 3; do
  { cat section_1; echo --session; cat section_2; } > sessions.source
  cp two_series.volume sessions.volume
  input=sessions.source wants "full transactions of two sessions, seed $seed" 0 "$ts" sessions.volume sessions $seed
  in_turns 2 $seed > sessions.replies
  same "full transactions of two sessions, seed $seed: replies" said sessions.replies
done
wants "sixteen full views: init" 0 "$ts" sixteen.volume init 256
{
  echo "CreateRowType(wide, t datetime, v integer, p varchar(255), q varchar(255), u varchar(250));"
  echo "TSContainerCreate(c1, wide, 256);"
  for who in $(seq 16); do echo "TSCreateIrr('s$who', c1);"; done
} > some.script
input=some.script wants "sixteen full views: series" 0 "$ts" sixteen.volume run
: > sessions.source
for who in $(seq 16); do
  [ "$who" -eq 1 ] || echo --session
  echo Begin\;
  for n in $(seq 32); do printf "InsElem('s%d','2011-01-03 00:%02d:00',%d,'p','','u');\n" "$who" $((n * 13 % 33)) "$n"; done
  echo "InsElem('s$who','2011-01-03 01:00:00',33,'p','','u');GetNelems('s$who');GetNelems('s$((who % 16 + 1))');Commit;"
done > sessions.source
for who in $(seq 16); do
  echo ok
  for n in $(seq 32); do printf 'ok 2011-01-03 00:%02d:00.00000\n' $((n * 13 % 33)); done
  printf 'error 52 TransactionFull\nok 32\nok 0\nok 32\n'
done | awk '{ print > ("replies_of_" int((NR - 1) / 37) + 1) }'
# Another session's commit may come before a Begin: so all begin before the first commits, as by most seeds.
for seed in 1 4294967295; do
  in_turns 16 $seed > sessions.replies
  holds "sixteen full views, seed $seed: all begin before one ends" \
    [ "$(grep -n '^ok$' sessions.replies | tail -n 1 | cut -d : -f 1)" -lt "$(grep -n 'Full$' sessions.replies | head -n 1 | cut -d : -f 1)" ]
  cp sixteen.volume sessions.volume
  input=sessions.source wants "sixteen full views, seed $seed" 0 "$ts" sessions.volume sessions $seed
  same "sixteen full views, seed $seed: replies" said sessions.replies
done
for who in $(seq 16); do echo "GetNelems('s$who');"; done > some.script
for who in $(seq 16); do echo "ok 32"; done > some.replies
input=some.script wants "sixteen full views: a run behind it" 0 "$ts" sessions.volume run
same "sixteen full views: what it leaves" said some.replies
wants "sixteen full views: check" 0 "$ts" sessions.volume check
mv sessions.volume sixteen.volume
rm section_* replies_of_*

# Pages that are freed and taken again under a view, in a store in which none is free; five elements a page, which rising
# ones fill to three, but for the last.
wants "pages taken again: init" 0 "$ts" taken_again.volume init 6
row=",'p','','u'"
{
  echo "CreateRowType(wide, t datetime, v integer, p varchar(255), q varchar(255), u varchar(250));"
  echo "TSContainerCreate(c1, wide, 6);TSCreateIrr('w', c1);TSCreateIrr('v', c1);"
  for day in $(seq -w 15); do echo "InsElem('w','D$day',$day$row);"; done
  for day in 01 02 03 04 05; do echo "InsElem('v','D$day',$day$row);"; done
} | in_days > some.script
input=some.script wants "pages taken again: run" 0 "$ts" taken_again.volume run
wants "pages taken again: check" 0 "$ts" taken_again.volume check
printf 'container c1 charge 6 of 6 series 2\nok 6 of 6\n' > some.replies
same "pages taken again: none is free" said some.replies
all_of_w=
for day in $(seq -w 15); do all_of_w="${all_of_w}D$day $((10#$day))$row / "; done
all_of_v=
for day in $(seq -w 11); do all_of_v="${all_of_v}D$day $((10#$day))$row / "; done
plays "pages taken again" taken_again.volume << TURNS
1 Begin; -> ok
1 Clip('w','D01','D31'); -> ${all_of_w}ok 15
2 DropSeries('w'); -> ok
2 InsElem('v','D06',6$row); -> ok D06
2 InsElem('v','D07',7$row); -> ok D07
2 InsElem('v','D08',8$row); -> ok D08
2 InsElem('v','D09',9$row); -> ok D09
2 InsElem('v','D10',10$row); -> ok D10
2 InsElem('v','D11',11$row); -> ok D11
1 Clip('w','D01','D31'); -> ${all_of_w}ok 15
1 GetNelems('v'); -> ok 5
1 Commit; -> ok 0
TURNS
leaves "pages taken again" "GetNelems('w');Clip('v','D01','D31');" "error 10 UnknownName / ${all_of_v}ok 11"
plays "a view takes what it freed, and others take it too" taken_again.volume << TURNS
1 Begin; -> ok
1 DropSeries('w'); -> ok
1 InsElem('v','D06',6$row); -> ok D06
2 DelClip('w','D01','D15'); -> ok 15
2 TSCreateIrr('u', c1); -> ok
2 InsElem('u','D01',1$row); -> ok D01
1 Clip('v','D05','D31'); -> D05 5$row / D06 6$row / ok 2
2 GetNelems('v'); -> ok 5
1 Commit; -> commit 1 / error 53 Conflict
2 Clip('u','D01','D31'); -> D01 1$row / ok 1
TURNS
leaves "a view takes what it freed, and others take it too" "GetNelems('w');GetNelems('v');Clip('u','D01','D31');" \
  "ok 0 / ok 5 / D01 1$row / ok 1"
rm taken_again.volume

# A view that drops a series and makes one of its name.
plays "a series is dropped and made again in a view" << 'TURNS'
2 InsElem('x','D03',1); -> ok D03
1 Begin; -> ok
1 DropSeries('x'); -> ok
1 TSCreateIrr('x', c1); -> ok
1 InsElem('x','D04',2); -> ok D04
2 Clip('x','D01','D31'); -> D03 1 / ok 1
1 Clip('x','D01','D31'); -> D04 2 / ok 1
1 Commit; -> ok 3
2 Clip('x','D01','D31'); -> D04 2 / ok 1
TURNS
leaves "a series is dropped and made again in a view" "$all_of_x ListSeries(c1);" "D04 2 / ok 1 / 'x' irregular 1 / 'y' irregular 0 / ok 2"
plays "a series is dropped and made again, and another edited it" << 'TURNS'
1 Begin; -> ok
1 DropSeries('x'); -> ok
1 TSCreateIrr('x', c1); -> ok
2 InsElem('x','D03',1); -> ok D03
1 Commit; -> commit 1 / error 53 Conflict
TURNS
leaves "a series is dropped and made again, and another edited it" "$all_of_x" "D03 1 / ok 1"

# A checkpoint under a view: more commits of a page come while it is open than the journal holds.
{
  echo "Begin;InsElem('y','D03',7);"
  for _number in $(seq 400); do echo "GetElem('x','D03');"; done
  printf '%s\n' "GetElem('y','D03');Commit;" --session "InsElem('x','D03',0);"
  for n in $(seq 400); do echo "UpdElem('x','D03',$n);"; done
} | in_days > sessions.source
awk "$turns"'
  BEGIN {
    left[1] = 404
    left[2] = 401
    value = -1
    begin_turns(11)
    for (all = 805; all > 0; all--) {
      who = whose_turn(left, 2)
      turn = 404 - left[who]--
      if (who == 2) { value++; reply = "ok D03" }
      else if (turn == 0) { seen = value; reply = "ok" }
      else if (turn == 1) reply = "ok D03"
      else if (turn < 402) reply = seen < 0 ? "ok 0" : "D03 " seen " / ok 1"
      else if (turn == 402) reply = "D03 7 / ok 1"
      else { reply = "ok 1"; print value - seen > "sessions.commits" }
      print "session " who "\n" reply
    }
  }' | in_days > sessions.replies
holds "a checkpoint under a view: commits enough" [ "$(cat sessions.commits)" -gt 300 ]
cp two_series.volume sessions.volume
input=sessions.source wants "a checkpoint under a view" 0 "$ts" sessions.volume sessions 11
same "a checkpoint under a view: replies" said sessions.replies
leaves "a checkpoint under a view" "$all_of_both" "D03 400 / ok 1 / D03 7 / ok 1"

# A run that is killed while its reader waits: what was said is a front of the replies, and the volume holds the commits
# among them, perhaps the next one, in the order of the turns.
cp two_series.volume sessions.volume
{
  for n in $(seq 30); do printf "InsElem('y','2011-01-03 00:%02d:00',%d);\n" "$n" "$n"; done
  for who in 1 2 3 4; do echo "TSCreateIrr('s$who', c1);"; done
} > some.script
input=some.script wants "a run that is killed: series" 0 "$ts" sessions.volume run
for who in 1 2 3 4; do
  [ "$who" -eq 1 ] || echo --session
  for n in $(seq 0 59); do
    printf "InsElem('s%d','2011-01-03 00:00:%02d',%d);Clip('y','2011-01-01 00:00:00','2011-01-31 00:00:00');\n" "$who" "$n" "$n"
  done
done > sessions.source
awk "$turns"'
  BEGIN {
    for (n = 1; n <= 30; n++) rows = rows sprintf("2011-01-03 00:%02d:00.00000 %d\n", n, n)
    for (who = 1; who <= 4; who++) left[who] = 120
    begin_turns(9)
    for (all = 480; all > 0; all--) {
      who = whose_turn(left, 4)
      turn = 120 - left[who]--
      print "session " who
      if (turn % 2 == 1) { printf "%sok 30\n", rows; continue }
      printf "ok 2011-01-03 00:00:%02d.00000\n", turn / 2
      print "s" who > "sessions.commits"
    }
  }' > sessions.replies
mkfifo slow.replies
{
  "$ts" sessions.volume sessions 9 < sessions.source > slow.replies &
  process=$!
  { head -c 20000; kill -9 $process; cat; } < slow.replies > said
  wait $process
} 2> complained
holds "a run that is killed" [ $? -eq 137 ]
rm slow.replies
holds "a run that is killed: a front of the replies was said" cmp -s -n "$(wc -c < said)" said sessions.replies
answered=$(head -n "$(wc -l < said)" said | grep -c '^ok 2011')
for who in 1 2 3 4; do echo "GetNelems('s$who');"; done > some.script
input=some.script wants "a run that is killed: a run behind it" 0 "$ts" sessions.volume run
held=$(awk '{ n += $2 } END { print n }' said)
holds "a run that is killed: some commits" [ "$answered" -gt 10 ]
holds "a run that is killed: not all commits" [ "$answered" -lt 239 ]
holds "a run that is killed: what was said is there" [ "$held" -ge "$answered" ]
holds "a run that is killed: one more at most is there" [ "$held" -le $((answered + 1)) ]
for who in 1 2 3 4; do echo "ok $(head -n "$held" sessions.commits | grep -c "s$who")"; done > some.replies
same "a run that is killed: they came in the order of the turns" said some.replies

# A statement for whose reply there is no memory leaves the transaction open; its line stands behind its session's.
cp two_series.volume second.volume
echo "CreateCalendar(s, 'startdate(2011-01-03 00:00:00), pattstart(2011-01-03 00:00:00), pattern({1 on},second)');" > some.script
input=some.script wants "no memory in a session: a calendar" 0 "$ts" second.volume run
printf '%s\n' "Begin;InsElem('x','D03',1);CalRange(s, '2011-01-03 00:00:00', '2011-01-14 13:46:39');GetNelems('x');Commit;" \
  --session "InsElem('y','D03',1);" | in_days > sessions.source
printf '%s\n' ok 'ok D03' 'error 90 Memory' 'ok 1' 'ok 1' > replies_of_1
echo 'ok D03' > replies_of_2
in_turns 2 3 > sessions.replies
input=sessions.source wants "no memory in a session" 0 bash -c 'ulimit -v 32768; exec "$0" second.volume sessions 3' "$ts"
same "no memory in a session: replies" said sessions.replies
rm second.volume replies_of_*
# No memory for the scripts, of half a million statements: nothing is said.
cp two_series.volume sessions.volume
{ echo "InsElem('x','2011-01-03 00:00:00',1);"; yes 'a;' | head -n 520000 | tr -d '\n'; } > sessions.source
input=sessions.source wants "no memory for the scripts" 7 bash -c 'ulimit -v 32768; exec "$0" sessions.volume sessions 3' "$ts"
same "no memory for the scripts: replies" said nothing
leaves "no memory for the scripts" "$all_of_x" "ok 0"
head -c $((38 + 200000)) sessions.source > fewer.source
input=fewer.source wants "memory for the scripts" 0 "$ts" sessions.volume sessions 3
holds "memory for the scripts: each has its reply" [ "$(grep -c '^error 1 Syntax$' said)" -eq 100000 ]
rm fewer.source

# Words, and what is no store.
cp two_series.volume sessions.volume
printf 'GetNelems(%s);' "'x'" > sessions.source
for words in sessions "sessions x" "sessions -1" "sessions +1" "sessions 4294967296" "sessions 9999999999" \
  "sessions 00000000001" "sessions 1 1" "session 1" "Sessions 1" "sessions 1.0" "sessions 0x1"; do
  # shellcheck disable=SC2086
  input=sessions.source wants "no job: $words" 2 "$ts" sessions.volume $words
  same "no job: $words: nothing is said" said nothing
done
for word in '' ' 1' '1 '; do input=sessions.source wants "no job: sessions '$word'" 2 "$ts" sessions.volume sessions "$word"; done
same "words that name no job leave the volume to sessions" sessions.volume two_series.volume
for seed in 0 4294967295; do
  says "seed $seed" 0 $seed "GetNelems('x');\n--session\nGetNelems('x');" "1 ok 0\n2 ok 0\n"
done
says "seed 1 with zeros" 0 0000000001 "GetNelems('x');\n--session\nGetNelems('x');" "2 ok 0\n1 ok 0\n"
: > empty.volume
input=sessions.source wants "sessions on an empty file" 6 "$ts" empty.volume sessions 1
input=sessions.source wants "sessions on no file" 11 "$ts" none.volume sessions 1
input=sessions.source wants "sessions on a folder" 11 "$ts" . sessions 1
cp two_series.volume sessions.volume
write_at sessions.volume $((4096 * 257)) '\377'
input=sessions.source wants "sessions on a damaged volume" 6 "$ts" sessions.volume sessions 1
same "sessions on a damaged volume: nothing is said" said nothing

# Standard streams: a source that fails, an output that is full or closed, and those that are the volume; a limit on file
# sizes.
cp two_series.volume sessions.volume
input=. wants "a source that fails" 3 "$ts" sessions.volume sessions 1
same "a source that fails: nothing is said" said nothing
same "a source that fails: the volume" sessions.volume two_series.volume
printf '%s\n' "InsElem('x','2011-01-03 00:00:00',1);InsElem('x','2011-01-04 00:00:00',2);" > sessions.source
if [ -w /dev/full ]; then
  "$ts" sessions.volume sessions 1 < sessions.source > /dev/full 2> complained
  holds "full standard output: sessions" [ $? -eq 4 ]
  holds "full standard output: sessions: one line is told" [ "$(wc -l < complained)" -eq 1 ]
  echo "GetNelems('x');" > some.script
  input=some.script wants "full standard output: a run behind sessions" 0 "$ts" sessions.volume run
  holds "full standard output: the first commit or none is there" grep -qx 'ok [01]' said
fi
cp two_series.volume sessions.volume
"$ts" sessions.volume sessions 1 < sessions.source >&- 2> complained
holds "closed standard output: sessions" [ $? -eq 11 ]
input=sessions.volume wants "sessions of the volume itself" 11 "$ts" sessions.volume sessions 1
same "closed standard output: sessions: the volume" sessions.volume two_series.volume
input=sessions.source wants "a limit on file sizes: sessions" 5 bash -c 'ulimit -f 1; exec "$0" sessions.volume sessions 1' "$ts"
same "a limit on file sizes: sessions: replies" said nothing
leaves "a limit on file sizes: sessions" "$all_of_x" "ok 0"
printf '%s\n' "Begin;InsElem('x','2011-01-03 00:00:00',1);GetNelems('x');Rollback;" > sessions.source
printf '1 ok\n1 ok D03\n1 ok 1\n1 ok\n' | sed -E 's/^([0-9]+) /session \1\n/' | in_days > sessions.replies
input=sessions.source wants "a limit on file sizes: nothing is committed" 0 \
  bash -c 'ulimit -f 1; exec "$0" sessions.volume sessions 1' "$ts"
same "a limit on file sizes: nothing is committed: replies" said sessions.replies
rm -f sessions.source sessions.replies sessions.commits sessions.raw_source sessions.raw_replies

# Random schedules of four sessions beside lists that awk keeps: the newest ones, and for each open transaction those of
# its Begin with its own edits. A Commit is carried out again on the newest. Five elements stand on a page.
wants "random sessions: init" 0 "$ts" random_first.volume init 500
awk '
  BEGIN {
    print "CreateRowType(r, t datetime, v integer, p varchar(255), q varchar(255), u varchar(250));"
    print "TSContainerCreate(k, r, 100);TSContainerCreate(m, r, 100);TSContainerCreate(n, r, 100);"
    print "TSCreateIrr(\047a\047, k);TSCreateIrr(\047b\047, k);TSCreateIrr(\047c\047, m);TSCreateIrr(\047d\047, m);"
    for (n = 0; n < 30; n++) printf "InsElem(\047a\047,\0472011-01-03 10:00:%02d\047,%d,\047p\047,\047\047,\047u\047);\n", n, n
    for (n = 0; n < 9; n++) printf "InsElem(\047b\047,\0472011-01-03 10:00:%02d\047,%d,\047p\047,\047\047,\047u\047);\n", 2 * n, n
  }' > some.script
input=some.script wants "random sessions: the first run" 0 "$ts" random_first.volume run
awk -v rounds=40 "$turns"'
  # A list has the stamps of its elements, in steps of 10 microseconds from 10:00:00 on, with their values: ` TICK:VALUE`
  # for each, in rising order.
  function value_at(list, tick,   at, rest) {
    at = index(list, sprintf(" %07d:", tick))
    if (at == 0) return ""
    rest = substr(list, at + 9) " "
    return substr(rest, 1, index(rest, " ") - 1)
  }
  function without(list, tick,   at, rest) {
    at = index(list, sprintf(" %07d:", tick))
    if (at == 0) return list
    rest = substr(list, at + 9)
    return substr(list, 1, at - 1) (index(rest, " ") ? substr(rest, index(rest, " ")) : "")
  }
  function with(list, tick, value,   n, i, part, text, is_done) {
    n = split(list, part, " ")
    text = ""
    is_done = 0
    for (i = 1; i <= n; i++) {
      if (!is_done && substr(part[i], 1, 7) + 0 > tick) { text = text sprintf(" %07d:%d", tick, value); is_done = 1 }
      text = text " " part[i]
    }
    return is_done ? text : text sprintf(" %07d:%d", tick, value)
  }
  function count_of(list,   part) { return split(list, part, " ") }
  function last_within(list, second,   n, i, part, tick, last) {
    n = split(list, part, " ")
    for (i = 1; i <= n; i++) { tick = substr(part[i], 1, 7) + 0; if (int(tick / 100000) == second) last = tick }
    return last
  }
  function rows(list, from, to,   n, i, part, tick, text, count) {
    n = split(list, part, " ")
    for (i = 1; i <= n; i++) {
      tick = substr(part[i], 1, 7) + 0
      if (tick >= from && tick <= to) { text = text stamp(tick) " " substr(part[i], 9) ",\047p\047,\047\047,\047u\047\n"; count++ }
    }
    return text "ok " count + 0
  }
  function stamp(tick) { return sprintf("2011-01-03 10:00:%02d.%05d", int(tick / 100000), tick % 100000) }

  # A catalogue: which containers there are (`has`), in which one each series stands (`of`), and its elements (`list`). 0
  # is the newest, 1 to 4 are those of open transactions, 9 is one in which a Commit is tried.
  function copy(from, to,   i) {
    for (i in keys) { of[to, keys[i]] = of[from, keys[i]]; list[to, keys[i]] = list[from, keys[i]] }
    for (i in containers) has[to, containers[i]] = has[from, containers[i]]
  }
  # The reply to a statement on a catalogue, which is changed where it is accepted.
  function carry_out(id, what, key, tick, value,   i) {
    if (what == "TSContainerCreate") {
      if (has[id, key]) return "error 11 NameTaken"
      has[id, key] = 1
      return "ok"
    }
    if (what == "TSContainerDestroy") {
      if (!has[id, key]) return "error 10 UnknownName"
      for (i in keys) if (of[id, keys[i]] == key) return "error 32 InUse"
      has[id, key] = 0
      return "ok"
    }
    if (what == "TSCreateIrr") {
      if (!has[id, value]) return "error 10 UnknownName"
      if (of[id, key] != "") return "error 11 NameTaken"
      of[id, key] = value
      list[id, key] = ""
      return "ok"
    }
    if (of[id, key] == "") return "error 10 UnknownName"
    if (what == "DropSeries") { of[id, key] = list[id, key] = ""; return "ok" }
    if (what == "GetNelems") return "ok " count_of(list[id, key])
    if (what == "GetElem") return rows(list[id, key], tick, tick)
    if (what == "Clip") return rows(list[id, key], tick, value)
    is_there = value_at(list[id, key], tick) != ""
    if (what == "InsElem" && is_there) return "error 23 Duplicate"
    if (what == "UpdElem" && !is_there) return "error 24 Missing"
    if (what == "PutElem" && is_there) {
      tick = last_within(list[id, key], int(tick / 100000)) + 1
      if (tick % 100000 == 0) return "error 25 SecondFull"
    }
    list[id, key] = without(list[id, key], tick)
    if (what == "DelElem") return "ok " is_there + 0
    list[id, key] = with(list[id, key], tick, value)
    return "ok " stamp(tick)
  }
  function writes(what) { return what !~ /^(GetNelems|GetElem|Clip|Begin|Commit|Rollback)$/ }
  # What a statement writes, and what else it names.
  function wrote(what, key) { return what ~ /^TSContainer/ ? " container:" key " " : " series:" key " " }
  function named(what, value) { return what == "TSCreateIrr" ? " container:" value " " : "" }

  function commit(who,   c, i, n, part, reply) {
    is_open[who] = 0
    for (c = begun[who] + 1; c <= commits; c++) {
      n = split(wrote_by[c], part, " ")
      for (i = 1; i <= n; i++) if (index(touched[who], " " part[i] " ")) return "commit " c "\nerror 53 Conflict"
    }
    copy(0, 9)
    for (i = 1; i <= noted[who]; i++) {
      reply = carry_out(9, note[who, i, 1], note[who, i, 2], note[who, i, 3], note[who, i, 4])
      if (reply ~ /^error/) { refused_by_newest++; return reply }
    }
    copy(9, 0)
    wrote_by[++commits] = own[who]
    return "ok " noted[who]
  }
  # The reply to the next statement of a session.
  function turn_of(who, what, key, tick, value,   id, reply) {
    if (what == "Begin") {
      if (is_open[who]) return "error 51 AlreadyOpen"
      is_open[who] = 1
      begun[who] = commits
      noted[who] = 0
      touched[who] = own[who] = ""
      copy(0, who)
      return "ok"
    }
    if (what ~ /^(Commit|Rollback)$/ && !is_open[who]) return "error 50 NotOpen"
    if (what == "Rollback") { is_open[who] = 0; return "ok" }
    if (what == "Commit") return commit(who)
    if (is_open[who] && writes(what) && noted[who] == 32) return "error 52 TransactionFull"
    id = is_open[who] ? who : 0
    reply = carry_out(id, what, key, tick, value)
    if (!writes(what) || reply ~ /^error/) return reply
    if (is_open[who]) {
      noted[who]++
      note[who, noted[who], 1] = what
      note[who, noted[who], 2] = key
      note[who, noted[who], 3] = tick
      note[who, noted[who], 4] = value
      own[who] = own[who] wrote(what, key)
      touched[who] = touched[who] wrote(what, key) named(what, value)
    } else wrote_by[++commits] = wrote(what, key)
    return reply
  }

  # Statements by numbers of their own.
  function below(n) { made = next_of(made); return int(made / 1000) % n }
  function a_tick(  part) { part = below(8); return below(20) * 100000 + (part == 0 ? 50000 : part < 3 ? 99999 : part == 3 ? 99998 : 0) }
  function make(round, who, i,   n, what, key, tick, value, text, to) {
    n = round % 10 == 0 && i < 90 ? 20 + below(80) : below(100)
    if (i == 1 && round % 2 == 0) n = 0
    key = keys[1 + below(5)]
    tick = a_tick()
    value = 1000 * who + i
    what = n < 10 ? "Begin" : n < 18 ? "Commit" : n < 20 ? "Rollback" : n < 38 ? "InsElem" : n < 50 ? "PutElem" : n < 56 ? "UpdElem" \
      : n < 67 ? "DelElem" : n < 75 ? "GetElem" : n < 82 ? "Clip" : n < 85 ? "GetNelems" : n < 86 ? "DropSeries" : n < 93 ? "TSCreateIrr" \
      : n < 96 ? "TSContainerCreate" : "TSContainerDestroy"
    # in some rounds two sessions destroy and make containers in which the other two make and drop series
    if (round % 4 == 3 && who <= 2 && below(6)) what = substr("CBDGC", i % 5 + 1, 1)
    if (round % 4 == 3 && who > 2 && below(6)) what = i % 2 ? "TSCreateIrr" : "DropSeries"
    what = what == "B" ? "Begin" : what == "C" ? (i % 5 ? "Commit" : "TSContainerCreate") : what == "D" ? "TSContainerDestroy" \
      : what == "G" ? "GetNelems" : what
    if (what ~ /^TSContainer/) key = containers[1 + below(5)]
    if (what == "TSCreateIrr") value = containers[1 + below(5)]
    if (what == "Clip") { tick = 100000 * below(40); value = 100000 * below(41) + 99999 }
    if (what ~ /^(Begin|Commit|Rollback)$/) text = what
    else if (what == "TSContainerCreate") text = what "(" key ", r, 100)"
    else if (what == "TSContainerDestroy") text = what "(" key ")"
    else if (what == "TSCreateIrr") text = what "(\047" key "\047, " value ")"
    else if (what ~ /^(DropSeries|GetNelems)$/) text = what "(\047" key "\047)"
    else if (what ~ /^(GetElem|DelElem)$/) text = what "(\047" key "\047,\047" stamp(tick) "\047)"
    else if (what == "Clip") text = what "(\047" key "\047,\047" stamp(tick) "\047,\047" stamp(value) "\047)"
    else text = what "(\047" key "\047,\047" stamp(tick) "\047," value ",\047p\047,\047\047,\047u\047)"
    statement[who, i, 1] = what
    statement[who, i, 2] = key
    statement[who, i, 3] = tick
    statement[who, i, 4] = value
    return text ";"
  }
  function round_of(round,   who, i, left, total, all, file, reply, n) {
    copy(10, 0)
    commits = 0
    made = (7919 * round + 5) % 2147483648
    file = "random_" round
    all = 0
    for (who = 1; who <= 4; who++) {
      is_open[who] = 0
      left[who] = total[who] = round % 10 == 0 ? 96 : below(9) == 0 ? 0 : 25 + below(30)
      all += left[who]
      for (i = 1; i <= left[who]; i++) printf "%s%s", make(round, who, i), below(3) ? "\n" : " " > (file ".source")
      printf "%s", who < 4 ? "\n--session\n" : "" > (file ".source")
    }
    begin_turns(seed_of(round))
    printf "" > (file ".replies")
    for (; all > 0; all--) {
      who = whose_turn(left, 4)
      i = total[who] - left[who]-- + 1
      reply = turn_of(who, statement[who, i, 1], statement[who, i, 2], statement[who, i, 3], statement[who, i, 4])
      print "session " who "\n" reply > (file ".replies")
      n = split(reply, word, " ")
      came[reply ~ /error/ ? word[n] : statement[who, i, 1] ":ok"]++
    }
    for (i = 1; i <= 5; i++)
      print of[0, keys[i]] == "" ? "error 10 UnknownName" : rows(list[0, keys[i]], 0, 5999999) > (file ".left")
    for (i = 1; i <= 5; i++) print has[0, containers[i]] ? "ok" : "error 10 UnknownName" > (file ".left")
    close(file ".source"); close(file ".replies"); close(file ".left")
  }
  function seed_of(round) { return round == 1 ? 0 : round == 2 ? 4294967295 : (2654435761 * round) % 4294967296 }
  BEGIN {
    split("a b c d e", keys, " ")
    split("k m n p q", containers, " ")
    has[10, "k"] = has[10, "m"] = has[10, "n"] = 1
    of[10, "a"] = of[10, "b"] = "k"
    of[10, "c"] = of[10, "d"] = "m"
    for (n = 0; n < 30; n++) list[10, "a"] = with(list[10, "a"], n * 100000, n)
    for (n = 0; n < 9; n++) list[10, "b"] = with(list[10, "b"], 2 * n * 100000, n)
    for (round = 1; round <= rounds; round++) { round_of(round); printf "%d %.0f\n", round, seed_of(round) > "random.seeds" }
    for (reply in came) print reply, came[reply] > "random.came"
    print "refused by the newest", refused_by_newest + 0 > "random.came"
  }'
# What is asked of each round behind it: the elements of each series, and which containers there are; these are charged 0
# or more of 100.
for key in a b c d e; do echo "Clip('$key','2011-01-03 10:00:00','2011-01-03 10:00:59.99999');"; done > random.script
for name in k m n p q; do echo "TSContainerUsage($name);"; done >> random.script
while read -r round seed; do
  cp random_first.volume sessions.volume
  input=random_"$round".source wants "random sessions $round" 0 "$ts" sessions.volume sessions "$seed"
  same "random sessions $round: replies by seed $seed" said random_"$round".replies
  input=random.script wants "random sessions $round: a run behind them" 0 "$ts" sessions.volume run
  sed -E 's/^ok [0-9]+ 100$/ok/' said > random.left
  same "random sessions $round: what they leave" random.left random_"$round".left
  wants "random sessions $round: check" 0 "$ts" sessions.volume check
done < random.seeds
for reply in Commit:ok Rollback:ok Conflict TransactionFull AlreadyOpen NotOpen InUse Duplicate Missing SecondFull NameTaken UnknownName; do
  holds "random sessions: some replies are $reply" grep -q "^$reply " random.came
done
holds "random sessions: some Commits are refused by the newest lists" grep -qE '^refused by the newest [1-9]' random.came
mv sessions.volume random.volume
rm -f random_*.source random_*.replies random_*.left random.left random.script random.seeds random.came random_first.volume
