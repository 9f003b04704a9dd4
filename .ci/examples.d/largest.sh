# shellcheck shell=bash
# A million intervals, the largest volume, and as many series as there may be.

# A million elements in as many intervals are a reply, which a Clip says as well, and sums over one element and
# expressions do; with one more they are too many. The volume is made by hand.
if command -v cc > /dev/null; then
  cc -O2 -o readings "$top/bench/readings.c" && ./readings fill million.volume
  from=2011-01-03 to=2040-01-01
  for key in irregular regular; do
    echo "Clip('$key','$from 00:00:00','$to 00:00:00');" > clip.script
    input=clip.script wants "a million intervals, $key: clip" 0 "$ts" million.volume run
    mv said million.replies
    echo "AggregateBy('last(\$wh)',quarters,'$key','$from 00:00:00','$to 00:00:00');" > by.script
    input=by.script wants "a million intervals, $key: aggregate" 0 "$ts" million.volume run
    same "a million intervals, $key" said million.replies
    echo "TSRunningSum('\$wh','$key',1,'$from 00:00:00','$to 00:00:00');" > running.script
    input=running.script wants "a million sums, $key: run" 0 "$ts" million.volume run
    same "a million sums, $key" said million.replies
    echo "Apply('\$wh','$key','$from 00:00:00','$to 00:00:00');" > apply.script
    input=apply.script wants "a million values, $key: run" 0 "$ts" million.volume run
    same "a million values, $key" said million.replies
  done
  {
    echo "PutElem('regular','2039-07-11 16:00:00',7);"
    cat by.script running.script apply.script
    echo "TSRunningAvg('\$wh','regular',96,'$from 00:00:00','$to 00:00:00');"
    # Too many rows come before a number without a place; what was said by then isn't said.
    for key in regular irregular; do
      echo "Apply('\$wh*999999999999999999*999999999999999999*999','$key','$from 00:00:00','$to 00:00:00');"
    done
    echo "TSRunningSum('\$wh','irregular',2,'$from 00:00:00','$from 00:15:00');"
    echo "AggregateRange('sum(\$wh),count(\$wh),avg(\$wh),last(\$wh)','irregular','$from 00:00:00','$to 00:00:00');"
    echo "AggregateAll('sum(\$wh),count(\$wh),max(\$wh),last(\$wh)',meters,'$from 00:00:00','$to 00:00:00');"
  } > more.script
  {
    echo "ok 2039-07-11 16:00:00.00000"
    for _ in by running apply avg overflow; do echo "error 34 TooLarge"; done
    echo "error 43 Overflow"
    printf "$from %s\n" "00:00:00.00000 0" "00:15:00.00000 1"
    echo "ok 2"
    echo "$from 00:00:00.00000 499999500000,1000000,499999.500000,999999"
    echo "ok 1"
    echo "'irregular' 499999500000,1000000,999999,999999"
    echo "'regular' 499999500007,1000001,999999,7"
    echo "ok 2"
  } > more.replies
  input=more.script wants "a million intervals and one: run" 0 "$ts" million.volume run
  same "a million intervals and one" said more.replies
  rm million.volume million.replies
else
  echo "cc isn't installed, so a million intervals weren't folded"
fi

# The largest volume, and as many series as there may be.
wants "the largest volume: init" 0 "$ts" largest.volume init 65536
{
  echo "CreateRowType(rd, t datetime, v integer); TSContainerCreate(c1, rd, 4096);"
  for number in $(seq 4097); do echo "TSCreateIrr('k$number', c1);"; done
} > many.script
{
  for number in $(seq 4098); do echo ok; done
  echo "error 33 TooMany"
} > many.replies
input=many.script wants "the largest volume: run" 0 "$ts" largest.volume run
same "4096 series at most" said many.replies

# All of them are folded, those with two elements, with one and with none.
awk 'BEGIN {
  for (n = 1; n <= 4096; n++) {
    if (n % 3 > 0) printf "InsElem(\047k%d\047,\0470001-01-01 00:00:00\047,%d);\n", n, n
    if (n % 3 > 1) printf "InsElem(\047k%d\047,\0479999-12-31 23:59:59.99999\047,%d);\n", n, n
  }
}' > many.script
input=many.script wants "elements of 4096 series: run" 0 "$ts" largest.volume run
echo "AggregateAll('sum(\$v)', c1, '0001-01-01 00:00:00', '9999-12-31 23:59:59.99999');" > many.script
input=many.script wants "4096 series folded: run" 0 "$ts" largest.volume run
{
  awk 'BEGIN { for (n = 1; n <= 4096; n++) printf "\047k%d\047 %s\n", n, (n % 3 ? n * (n % 3) : "null") }' | LC_ALL=C sort
  echo "ok 4096"
} > many.replies
same "4096 series folded" said many.replies
if taskset -c 0 true 2> /dev/null; then
  input=many.script wants "4096 series folded by one processor: run" 0 taskset -c 0 "$ts" largest.volume run
  same "4096 series folded by one processor" said many.replies
else
  echo "taskset isn't installed, so one processor alone folded no series"
fi
rm -f largest.volume blanks most_blanks
