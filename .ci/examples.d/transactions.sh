# shellcheck shell=bash
# Transactions: what is said in them, what is left of one that the script's end cuts off, and the memory that a run may
# have.

# with_series NAME: a new volume has two series.
with_series() {
  rm -f series.volume
  wants "$1: init" 0 "$ts" series.volume init 8
  answers "$1: series" series.volume << 'ROWS'
CreateRowType(rd, t datetime, v integer);TSContainerCreate(c1, rd, 8); -> ok / ok
TSCreateIrr('x', c1);TSCreateIrr('y', c1); -> ok / ok
ROWS
}
insertion="InsElem('x','2011-01-03 00:00:00',1); -> ok 2011-01-03 00:00:00.00000"
with_series "a rollback takes back what a commit keeps"
answers "a rollback takes back what a commit keeps" series.volume << ROWS
Begin; -> ok
$insertion
GetNelems('x'); -> ok 1
Rollback; -> ok
GetNelems('x'); -> ok 0
Begin; -> ok
$insertion
Begin; -> error 51 AlreadyOpen
Commit; -> ok 1
Commit; -> error 50 NotOpen
GetNelems('x'); -> ok 1
ROWS

# Commands that change nothing count too; readings don't, and are answered in a full transaction.
with_series "a transaction takes 32 commands that write"
answers "a transaction takes 32 commands that write" series.volume << ROWS
Begin; -> ok
$(for _number in $(seq 32); do echo "DelElem('x','2011-01-03 00:00:00'); -> ok 0"; done)
DelElem('x','2011-01-03 00:00:00'); -> error 52 TransactionFull
GetNelems('x'); -> ok 0
Commit; -> ok 32
ROWS
with_series "a transaction that is open at the end is given up"
answers "a transaction that is open at the end is given up" series.volume << ROWS
Begin; -> ok
$insertion
ROWS
answers "a transaction that is open at the end is given up: the run behind it" series.volume << 'ROWS'
GetNelems('x'); -> ok 0
Rollback; -> error 50 NotOpen
ROWS
rm series.volume

# A statement for whose reply there is no memory leaves the transaction as it was: what comes before and behind it is
# one commit, and its count is without it. The reply would have 26 MB.
wants "no memory in a transaction: init" 0 "$ts" bounded.volume init 8
{
  echo "CreateRowType(rd, t datetime, v integer);TSContainerCreate(c1, rd, 8);TSCreateIrr('x', c1);"
  echo "CreateCalendar(s, 'startdate(2011-01-03 00:00:00), pattstart(2011-01-03 00:00:00), pattern({1 on},second)');"
  echo "Begin;InsElem('x','2011-01-03 00:00:00',1);"
  echo "CalRange(s, '2011-01-03 00:00:00', '2011-01-14 13:46:39');"
  echo "GetNelems('x');InsElem('x','2011-01-04 00:00:00',2);Commit;"
  echo "Begin;InsElem('x','2011-01-05 00:00:00',3);CalRange(s, '2011-01-03 00:00:00', '2011-01-14 13:46:39');Rollback;"
} > bounded.script
printf 'ok\nok\nok\nok\nok\nok 2011-01-03 00:00:00.00000\nerror 90 Memory\nok 1\nok 2011-01-04 00:00:00.00000\nok 2\n' > bounded.replies
printf 'ok\nok 2011-01-05 00:00:00.00000\nerror 90 Memory\nok\n' >> bounded.replies
input=bounded.script wants "no memory in a transaction: run" 0 \
  bash -c 'ulimit -v 32768; exec "$0" bounded.volume run' "$ts"
same "no memory in a transaction: replies" said bounded.replies
echo "GetNelems('x');GetLastElem('x');Commit;" > bounded.script
printf 'ok 2\n2011-01-04 00:00:00.00000 2\nok 1\nerror 50 NotOpen\n' > bounded.replies
input=bounded.script wants "no memory in a transaction: the run behind it" 0 "$ts" bounded.volume run
same "no memory in a transaction: what it holds" said bounded.replies
rm -f bounded.volume bounded.script bounded.replies
