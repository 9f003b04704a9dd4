# shellcheck shell=bash
# Rolling sets: what is said of a set of two days; windows that go and come where there are as many series as there may
# be, or no more than one page, and puts that are refused once the old windows are gone.

days="'startdate(2011-01-03 00:00:00), pattstart(2011-01-03 00:00:00), pattern({1 on},day)'"
origin="ok 2011-01-03 00:00:00.00000"

# A container, the calendar of the days, and a set of two of them; puts into the first day, the second and the third, by
# which the first one goes.
set_of_two="CreateRowType(rd, t datetime, v integer);TSContainerCreate(c1, rd, 4);CreateCalendar(dc,$days);"
set_of_two+="RollingCreate('k', dc, '2011-01-03 00:00:00', c1, 2);"
first_put="RollingPut('k','2011-01-03 10:00:00',1);"
second_put="RollingPut('k','2011-01-04 00:00:00',2);"
third_put="RollingPut('k','2011-01-05 00:00:00',3);"
all_of_k="RollingClip('k','2011-01-01 00:00:00','2011-01-31 00:00:00');"

# set_answers NAME: where a new volume has the set, statements are answered so.
set_answers() {
  { echo "$set_of_two -> ok / ok / ok / $origin"; cat; } > set.rows
  wants "$1: init" 0 "$ts" set.volume init 8
  answers "$1" set.volume < set.rows
  rm set.volume set.rows
}
set_answers "a set keeps its last windows" << ROWS
$first_put -> ok 2011-01-03 10:00:00.00000
$second_put -> ok 2011-01-04 00:00:00.00000
$third_put -> ok 2011-01-05 00:00:00.00000
RollingPut('k','2011-01-03 00:00:00',4); -> error 45 WindowGone
RollingPut('k','2011-01-02 00:00:00',5); -> error 20 OffStamp
$all_of_k -> 2011-01-04 00:00:00.00000 2 / 2011-01-05 00:00:00.00000 3 / ok 2
RollingDrop('k');ListSeries(c1); -> ok 2 / ok 0
ROWS
set_answers "a far jump drops all windows" << ROWS
$first_put -> ok 2011-01-03 10:00:00.00000
$second_put -> ok 2011-01-04 00:00:00.00000
RollingPut('k','2011-01-31 00:00:00',9); -> ok 2011-01-31 00:00:00.00000
$all_of_k -> 2011-01-31 00:00:00.00000 9 / ok 1
ListSeries(c1); -> 'k#000000000028' irregular 1 / 'k#w0002' regular 0 / ok 2
ROWS

# By a regular series, or by one of another container.
set_answers "a window whose key is taken is refused" << ROWS
TSCreate('k#000000000000', dc, '2011-01-03 00:00:00', c1); -> ok 2011-01-03 00:00:00.00000
$first_put -> error 11 NameTaken
DropSeries('k#000000000000');TSContainerCreate(c2, rd, 4); -> ok / ok
TSCreateIrr('k#000000000000', c2); -> ok
$first_put -> error 11 NameTaken
$second_put -> ok 2011-01-04 00:00:00.00000
ROWS

# What the window that goes was charged is free for the next one.
set_answers "quotas are judged without the windows that go" << ROWS
TSContainerCreate(c2, rd, 1); -> ok
RollingCreate('m', dc, '2011-01-03 00:00:00', c2, 1); -> ok 2011-01-03 00:00:00.00000
RollingPut('m','2011-01-03 00:00:00',1); -> ok 2011-01-03 00:00:00.00000
RollingPut('m','2011-01-04 00:00:00',2); -> ok 2011-01-04 00:00:00.00000
DelElem('m#000000000001','2011-01-04 00:00:00');TSCreateIrr('x', c2); -> ok 1 / ok
InsElem('x','2011-01-03 00:00:00',7); -> ok 2011-01-03 00:00:00.00000
RollingPut('m','2011-01-05 00:00:00',3); -> error 30 ContainerFull
ListSeries(c2); -> 'm#000000000001' irregular 0 / 'm#w0001' regular 0 / 'x' irregular 1 / ok 3
ROWS

# A key of 40 bytes, one of 41, and one with the sign.
set_answers "a set has a key of 40 bytes at most" << ROWS
RollingDrop('aaaaaaaaaabbbbbbbbbbccccccccccdddddddddd'); -> error 10 UnknownName
RollingDrop('aaaaaaaaaabbbbbbbbbbccccccccccdddddddddde'); -> error 1 Syntax
RollingDrop('k#'); -> error 1 Syntax
ROWS

# The control with the least key counts, and an irregular one has no grid.
set_answers "other commands make controls too" << ROWS
TSCreate('m#w0000', dc, '2011-01-03 00:00:00', c1); -> ok 2011-01-03 00:00:00.00000
TSCreate('m#w1001', dc, '2011-01-03 00:00:00', c1); -> ok 2011-01-03 00:00:00.00000
RollingPut('m','2011-01-03 00:00:00',1); -> error 10 UnknownName
TSCreate('m#w0003', dc, '2011-01-03 00:00:00', c1);TSCreateIrr('m#w0002', c1); -> ok 2011-01-03 00:00:00.00000 / ok
RollingPut('m','2011-01-03 00:00:00',1);RollingDrop('m'); -> error 40 NotRegular / error 40 NotRegular
RollingCreate('m', dc, '2011-01-03 00:00:00', c1, 5); -> error 11 NameTaken
DropSeries('m#w0002');RollingPut('m','2011-01-03 00:00:00',1); -> ok / ok 2011-01-03 00:00:00.00000
ROWS
set_answers "a transaction takes no rolling routine" << ROWS
Begin; -> ok
$first_put -> error 51 AlreadyOpen
$all_of_k -> error 51 AlreadyOpen
RollingDrop('k'); -> error 51 AlreadyOpen
RollingCreate('m', dc, '2011-01-03 00:00:00', c1, 5); -> error 51 AlreadyOpen
Commit; -> ok 0
ROWS

# Another command fills a window, and hides an element in it.
set_answers "a set has what stands in its windows" << ROWS
$first_put -> ok 2011-01-03 10:00:00.00000
InsElem('k#000000000000','2011-01-20 00:00:00',8); -> ok 2011-01-20 00:00:00.00000
$second_put -> ok 2011-01-04 00:00:00.00000
HideElem('k#000000000000','2011-01-03 10:00:00'); -> ok 2011-01-03 10:00:00.00000
$all_of_k -> 2011-01-20 00:00:00.00000 8 / 2011-01-04 00:00:00.00000 2 / ok 2
ROWS

# rolls NAME SCRIPT REPLIES: a run of this script says these lines.
rolls() {
  echo "$2" > rolled.script
  printf '%b' "$3" > rolled.replies
  input=rolled.script wants "$1" 0 "$ts" rolled.volume run
  same "$1: replies" said rolled.replies
}

# leaves_all NAME SCRIPT REPLIES: the same, and no byte of the volume changes.
leaves_all() {
  wants "$1: the journal is settled" 0 "$ts" rolled.volume run
  cp rolled.volume kept.volume
  rolls "$1" "$2" "$3"
  same "$1: the volume" rolled.volume kept.volume
  rm kept.volume
}

# Two sets and their windows among 4096 series: a window comes where one goes, and none where all stay.
wants "rolling sets: init" 0 "$ts" rolled.volume init 8
rolls "rolling sets" "CreateRowType(rd, t datetime, v integer);TSContainerCreate(c1, rd, 8);CreateCalendar(dc, $days);
  RollingCreate('k', dc, '2011-01-03 00:00:00', c1, 2);RollingCreate('m', dc, '2011-01-03 00:00:00', c1, 5);
  RollingPut('k','2011-01-03 10:00:00',1);RollingPut('k','2011-01-04 10:00:00',2);" \
  "ok\nok\nok\n$origin\n$origin\nok 2011-01-03 10:00:00.00000\nok 2011-01-04 10:00:00.00000\n"
for number in $(seq 4093); do echo "TSCreateIrr('x$number', c1);"; done > rolled.script
{
  for number in $(seq 4092); do echo ok; done
  echo "error 33 TooMany"
} > rolled.replies
input=rolled.script wants "rolling sets among 4096 series" 0 "$ts" rolled.volume run
same "rolling sets among 4096 series: replies" said rolled.replies
leaves_all "no window more than 4096 series" "RollingPut('m','2011-01-03 00:00:00',1);
  RollingCreate('o', dc, '2011-01-03 00:00:00', c1, 1);" 'error 33 TooMany\nerror 33 TooMany\n'
rolls "one window goes and one comes" "RollingPut('k','2011-01-05 10:00:00',3);RollingPut('k','2011-01-04 11:00:00',4);
  TSCreateIrr('y', c1);RollingClip('k','2011-01-01 00:00:00','2011-01-31 00:00:00');" \
  'ok 2011-01-05 10:00:00.00000\nok 2011-01-04 11:00:00.00000\nerror 33 TooMany\n2011-01-04 10:00:00.00000 2\n2011-01-04 11:00:00.00000 4\n2011-01-05 10:00:00.00000 3\nok 3\n'
rolls "two windows go and one comes" "RollingPut('k','2011-01-31 00:00:00',9);RollingPut('m','2011-01-03 00:00:00',1);
  TSCreateIrr('y', c1);RollingClip('k','2011-01-01 00:00:00','2011-01-31 00:00:00');TSContainerUsage(c1);" \
  'ok 2011-01-31 00:00:00.00000\nok 2011-01-03 00:00:00.00000\nerror 33 TooMany\n2011-01-31 00:00:00.00000 9\nok 1\nok 2 8\n'
rolls "both sets are dropped" "RollingDrop('k');RollingDrop('m');TSCreateIrr('y', c1);TSContainerUsage(c1);" \
  'ok 1\nok 1\nok\nok 0 8\n'
wants "rolling sets: check" 0 "$ts" rolled.volume check
mv rolled.volume many_series.volume

# One page is enough for one window: the old one goes before the new one is charged.
wants "a set of one page: init" 0 "$ts" rolled.volume init 8
rolls "a set of one page" "CreateRowType(rd, t datetime, v integer);TSContainerCreate(c1, rd, 1);
  CreateCalendar(dc, $days);RollingCreate('k', dc, '2011-01-03 00:00:00', c1, 1);
  RollingPut('k','2011-01-03 00:00:00',1);RollingPut('k','2011-01-04 00:00:00',2);RollingPut('k','2012-01-01 00:00:00',3);
  RollingClip('k','2011-01-01 00:00:00','2012-12-31 00:00:00');TSContainerUsage(c1);" \
  "ok\nok\nok\n$origin\n$origin\nok 2011-01-04 00:00:00.00000\nok 2012-01-01 00:00:00.00000\n2012-01-01 00:00:00.00000 3\nok 1\nok 1 1\n"

# Of two controls of a set the one of fewer windows counts, and once that one is gone the other does.
wants "two controls: init" 0 "$ts" controls.volume init 8
cat > controls.script <<END
CreateRowType(rd, t datetime, v integer);TSContainerCreate(c1, rd, 4);CreateCalendar(dc, $days);
TSCreate('m#w0002', dc, '2011-01-03 00:00:00', c1);TSCreate('m#w0001', dc, '2011-01-03 00:00:00', c1);
RollingPut('m','2011-01-03 00:00:00',1);RollingPut('m','2011-01-04 00:00:00',2);
RollingClip('m','2011-01-01 00:00:00','2011-01-31 00:00:00');
DropSeries('m#w0001');RollingPut('m','2011-01-05 00:00:00',3);
RollingClip('m','2011-01-01 00:00:00','2011-01-31 00:00:00');
END
cat > controls.replies <<END
ok
ok
ok
$origin
$origin
$origin
ok 2011-01-04 00:00:00.00000
2011-01-04 00:00:00.00000 2
ok 1
ok
ok 2011-01-05 00:00:00.00000
2011-01-04 00:00:00.00000 2
2011-01-05 00:00:00.00000 3
ok 2
END
input=controls.script wants "two controls" 0 "$ts" controls.volume run
same "two controls: replies" said controls.replies
rm -f controls.volume controls.script controls.replies

# No page is left, where the window that goes has none. It stays then.
rolls "the window is emptied" "DelElem('k#000000000363','2012-01-01 00:00:00');TSCreateIrr('x', c1);
  InsElem('x','2011-01-03 00:00:00',7);" "ok 1\nok\n$origin\n"
leaves_all "a put without a page" "RollingPut('k','2012-01-02 00:00:00',4);" 'error 30 ContainerFull\n'

# The key of the new window is taken. The old ones stay with what they have.
rolls "a key is taken" "DropSeries('x');RollingPut('k','2012-01-01 00:00:00',5);
  TSCreate('k#000000000364', dc, '2011-01-03 00:00:00', c1);" "ok\nok 2012-01-01 00:00:00.00000\n$origin\n"
leaves_all "a put whose key is taken" "RollingPut('k','2012-01-02 00:00:00',6);" 'error 11 NameTaken\n'
rolls "what stays" "ListSeries(c1);RollingClip('k','2011-01-01 00:00:00','2012-12-31 00:00:00');" \
  "'k#000000000363' irregular 1\n'k#000000000364' regular 0\n'k#w0001' regular 0\nok 3\n2012-01-01 00:00:00.00000 5\nok 1\n"
wants "a set of one page: check" 0 "$ts" rolled.volume check
rm -f rolled.script rolled.replies
