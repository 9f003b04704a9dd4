# shellcheck shell=bash
# Why statements were refused: explain; and that each tool says its words.

# Why statements were refused: a beginner's mistakes, which `mistakes` has, each with its line and its cause.
: > nothing
# explained NAME STATUS SCRIPT REPLIES WANTED: a script and its replies are explained so.
explained() {
  printf '%b' "$3" > some.script
  printf '%b' "$4" > some.replies
  printf '%b' "$5" > wanted
  tells "$1" "$2" nothing "$examples/explain" some.script some.replies
  same "$1: what is told" said wanted
}
tells "mistakes" 1 nothing "$examples/explain" "$examples/mistakes.script" "$examples/mistakes.replies"
same "mistakes: what is told" said "$examples/mistakes.explained"
input=$examples/mistakes.replies tells "mistakes by standard input" 1 nothing \
  "$examples/explain" "$examples/mistakes.script" -
same "mistakes by standard input: what is told" said "$examples/mistakes.explained"
# Each script is cut as `ts` cut it, and each statement that its grammar refused has a reason by the grammar.
for script in "$examples"/*.script; do
  "$examples/explain" "$script" "${script%.script}.replies" > said 2> complained
  got=$?
  refused=$(grep -c '^error ' "${script%.script}.replies")
  told=$(grep -c '^    error ' said)
  if [ "$got" -eq $((refused > 0)) ] && [ "$told" -eq "$refused" ] && [ ! -s complained ] &&
    ! grep -q 'the replies of this script' said; then
    passed=$((passed + 1))
  else
    failed=$((failed + 1))
    echo "FAILED: explain $script: status $got, $refused refused, $told told"
  fi
done
# It knows every routine that the program has.
grep -ohE 'b"[A-Z][A-Za-z]+"' "$top/crates/ts_command/src/spelling.rt" |
  sed -E 's/b"(.*)"/\1;/; s/^(Begin|Commit|Rollback);/\1();/' > routines.script
sed 's/.*/error 1 Syntax/' routines.script > routines.replies
tells "every routine" 1 nothing "$examples/explain" routines.script routines.replies
holds "every routine: there are some" [ "$(grep -c 'Syntax: behind [A-Za-z]* stands a bracket' said)" -ge 46 ]
holds "every routine: three stand alone" [ "$(grep -c 'Syntax: [A-Za-z]* has no brackets' said)" -eq 3 ]
holds "every routine is known" [ "$(grep -c 'there is no routine' said)" -eq 0 ]
one='1 reply, 1 told above\n'
clip="Clip('a','2011-01-03 00:00:00','2011-01-03 00:00:00')"
explained "none refused" 0 "\n ; ;GetNelems('a;b') ;\n$clip;" "ok 0\n2011-01-03 00:00:00.00000 5\n'error 1' 3\nok 1\n" \
  "2 replies, none refused\n"
explained "no reply" 1 "GetNelems('a');\n\nGetNelems('b');GetNelems('c');" "ok 0\n" \
  "line 3: GetNelems('b')\n    it has no reply: run the script from here on\n$one"
explained "half a reply" 1 "$clip;" "2011-01-03 00:00:00.00000 5\n" \
  "line 1: $clip\n    its reply isn't whole: run the script from here on\n0 replies, 1 told above\n"
explained "replies of another script" 1 "GetNelems('a');" "ok 0\nok 1\n" \
  "more replies than statements, from line 2 of the replies on: these aren't the replies of this script\n$one"
explained "a byte order mark" 1 "\xef\xbb\xbfGetNelems('a');" "error 1 Syntax\n" \
  "line 1: \xef\xbb\xbfGetNelems('a')\n    error 1 Syntax: the file begins with a byte order mark: take it off\n$one"
explained "no end" 1 "GetNelems('a');\nGetNelems('b')" "ok 0\nerror 3 Unended\n" \
  "line 2: GetNelems('b')\n    error 3 Unended: it has no \`;\` at its end\n2 replies, 1 told above\n"
explained "rolling sets" 1 "RollingDrop('a#b');\nRollingCreate('k', days, '2011-01-01 00:00:00', c1, 1001);
RollingPut('a key of more than forty bytes is no key of a set','2011-01-01 00:00:00',1);\nRollingDrop('k');" \
  "error 1 Syntax\nerror 1 Syntax\nerror 1 Syntax\nerror 40 NotRegular\n" \
  "line 1: RollingDrop('a#b')
    error 1 Syntax: the key of a rolling set has 1 to 40 bytes and no #, and this one has a #
line 2: RollingCreate('k', days, '2011-01-01 00:00:00', c1, 1001)\n    error 1 Syntax: its number is from 1 to 1000
line 3: RollingPut('a key of more than forty bytes is no key of a set','201...
    error 1 Syntax: the key of a rolling set has 1 to 40 bytes and no #, and this one 49
line 4: RollingDrop('k')
    error 40 NotRegular: the set's control is an irregular series, which another statement made: DropSeries drops that one
4 replies, 4 told above\n"
# 65536 bytes and their cuts, beside those of `ts`: the longest statement, one byte more, blanks, and an open quote.
{
  printf "%0$((65536 - 15))d;" 0 | tr 0 ' ' | sed "s/;/GetNelems('n');/"
  printf "%0$((65537 - 15))d;" 0 | tr 0 ' ' | sed "s/;/GetNelems('n');/"
  printf '%065536d' 0 | tr 0 ' '
  printf "GetNelems('n');\nGetNelems('n;%065536d;);GetNelems('n');\nInsElem('n','2011-01-03 00:00:00','%065450d;;);" 0 0
  printf "GetNelems('n');\n%070000d\n;GetNelems('n');%065536d" 0 0
} > long.script
wants "long statements: init" 0 "$ts" long_statements.volume init 1
input=long.script wants "long statements: run" 0 "$ts" long_statements.volume run
mv said long.replies
tells "long statements" 1 nothing "$examples/explain" long.script long.replies
grep -o -e '^line [0-9]*' -e '^    error [0-9]*' -e '^[0-9]* replies.*' -e 'the replies of this script' said > told
refused=$(grep -c '^error' long.replies)
holds "long statements: each reply is one" grep -q "^$(wc -l < long.replies) replies, $refused told above" told
holds "long statements: three are too long" [ "$(grep -c '^    error 2' told)" -ge 3 ]
holds "long statements: the script's own replies" [ "$(grep -c 'of this script' told)" -eq 0 ]
for words in "" "long.script" "none.script long.replies" "long.script none.replies" "long.script long.replies more"; do
  # shellcheck disable=SC2086
  wants "nothing to explain: $words" 2 "$examples/explain" $words
done

# Each of these tools says what its words are.
for tool in explain from_csv to_csv plot; do
  wants "$tool: help" 0 "$examples/$tool" --help
  holds "$tool: help has its usage" grep -q "^usage: examples/$tool " said
done
