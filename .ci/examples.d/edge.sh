# shellcheck shell=bash
# The edge of the program: standard streams, paths, limits, locks, a full output; a replicated file system.

# Standard output that the caller closed must not become the volume.
cp first_readings.volume before
"$ts" first_readings.volume run >&- 2> complained < "$top/examples/first_readings.script"
[ $? -eq 11 ] && passed=$((passed + 1)) || { failed=$((failed + 1)); echo "FAILED: closed standard output"; }
same "closed standard output leaves the volume" before first_readings.volume

# The edge of the program: nothing that is said lands in a volume, what is no volume isn't opened, and each line says
# what to do.
mkdir path
ln -s "$ts" path/ts
# line TEXT: what a user types.
line() {
  PATH="$folder/path:$PATH" bash -c "$1"
}
# types LINE STATUS [COMPLAINT]: the line ends with this status and just this complaint, or with none, and leaves the
# volume a.v.
types() {
  cp a.v untouched.v
  printf '%s' "${3:+ts: $3$'\n'}" > wanted
  tells "$1" "$2" wanted line "$1"
  same "$1: the volume" untouched.v a.v
}
# makes_no NAME: there is no such file.
makes_no() {
  [ -e "$1" ] || [ -h "$1" ] || { passed=$((passed + 1)); return; }
  failed=$((failed + 1))
  echo "FAILED: $1 was made"
}
usage="say \`ts VOLUME init PAGES\` with 1 to 65536 pages, \`ts VOLUME run < SCRIPT\`, \`ts VOLUME check\`,"
usage="$usage \`ts VOLUME migrate\`, \`ts VOLUME gen COUNT SEED\` with 1 to 1000000 edits and a seed, or"
usage="$usage \`ts VOLUME sessions SEED < SCRIPTS\`"
wants "the edge: init" 0 "$ts" a.v init 8
{
  echo "CreateRowType(r, t datetime, v integer); TSContainerCreate(c, r, 8); TSCreateIrr('x', c);"
  echo "PutElem('x','2011-02-01 00:00:00',1);"
} > edge.script
input=edge.script wants "the edge: run" 0 "$ts" a.v run
wants "the edge: the journal is settled" 0 "$ts" a.v run
echo "GetNelems('x');" > count.script
ln a.v hard.v
ln -s a.v link.v

# A standard stream that is the volume: the line goes nowhere where it is standard error.
output="standard output is this very file, so nothing was done; give another file or a pipe for standard output"
script="standard input is this very file, so nothing was done; give another file or a pipe for standard input"
types 'ts a.v run >> a.v' 11 "a.v: $output"
types 'ts a.v run < count.script >> a.v' 11 "a.v: $output"
types 'ts a.v run 1<>a.v' 11 "a.v: $output"
types 'ts a.v bogus 1<>a.v' 11 "a.v: $output"
types 'ts a.v run < a.v' 11 "a.v: $script"
types 'ts link.v run >> hard.v' 11 "link.v: $output"
types 'ts a.v bogus 2>>a.v' 11
types 'ts a.v 2>>a.v' 11
types 'ts a.v run 2>>a.v' 11
types 'ts a.v run >> a.v 2>&1' 11
types 'ts a.v run < a.v 2<>a.v' 11
types 'ts a.v init 8 2>>a.v' 11
types 'ts a.v gen 1 1 2>>a.v' 11
types 'ts a.v migrate 2>>a.v' 11
types 'ts a.v check 2>>a.v' 11
types 'ts a.v check >> a.v' 11 "a.v: $output"
types 'ts hard.v run 2>>link.v' 11
types 'ts link.v init 8 2>>a.v' 11
types "ts a.v run \$'\\377' 2>>a.v" 2
types "ts \$'\\377' run 2>>a.v" 2
types "ts a.v run \$'\\377'" 2 "the command line: can't be read: invalid data"
ln a.v ./-x.v
types 'ts -x.v run 2>>a.v' 2
rm ./-x.v

# A standard stream that is closed.
closed="is closed, or it can't be told from this file as /proc is missing; open it, or mount /proc"
types 'ts a.v run <&-' 11 "a.v: standard input $closed"
types 'ts a.v run >&-' 11 "a.v: standard output $closed"
types 'ts a.v run 2>&-' 11
types 'ts a.v run >&- 2>>a.v' 11
types 'ts none.v init 8 >&-' 11 "none.v: standard output $closed"
makes_no none.v
input=count.script wants "the edge: it holds what it held" 0 "$ts" a.v run
echo "ok 1" > wanted
same "the edge: it holds what it held: replies" said wanted

# What is no plain file is not opened: the writer that waits at a pipe keeps its bytes.
mkfifo waiting
echo hi > waiting &
sleep 1
types 'ts waiting run' 11 "waiting: is no plain file; choose another path"
types 'ts waiting init 8' 11 "waiting: is no plain file; choose another path"
types 'ts waiting bogus' 11 "waiting: is no plain file; choose another path"
echo hi > wanted
timeout 10 cat waiting > said
same "the pipe has what its writer wrote" said wanted
wait $!
types 'ts /dev/null run' 11 "/dev/null: is no plain file; choose another path"
types 'ts . run' 11 ".: is no plain file; choose another path"

# No store is made through a symbolic link: its folder would be another than the one that is synced.
mkdir elsewhere
ln -s elsewhere/new.v dangling.v
link="is a symbolic link, through which no store is made; say init with the path of the file itself"
types 'ts dangling.v init 8' 11 "dangling.v: $link"
makes_no elsewhere/new.v
types 'ts link.v init 8' 11 "link.v: $link"
types 'ts dangling.v run' 11 "dangling.v: isn't there; \`ts PATH init PAGES\` makes one"
types 'ts link.v run' 0
types 'ts elsewhere/new.v init 8' 0

# Words in a wrong order, and words of other programs.
for word in -h -x -- -; do
  for words in "" " init 1" " run"; do
    types "ts $word$words" 2 "$word: is no path, as it begins with \`-\`; $usage; a file of such a name is given as \`./-NAME\`"
    makes_no "./$word"
  done
done
types 'ts ./-h init 1' 0
rm ./-h
for words in help version run 'run a.v' init 'init 8 a.v' 'gen a.v 1 1' 'migrate a.v' 'check a.v' 'sessions a.v 1'; do
  types "ts $words" 11 "${words%% *}: isn't there, and the volume's path comes first; $usage"
  makes_no "${words%% *}"
done
types 'ts none.v run' 11 "none.v: isn't there; \`ts PATH init PAGES\` makes one"
types 'ts none.v' 11 "none.v: isn't there; \`ts PATH init PAGES\` makes one"
types 'ts a.v' 2 "a.v: these words name no job; $usage"
types 'ts a.v bogus' 2 "a.v: these words name no job; $usage"

# A limit on file sizes is a failed file, and a run that writes nothing goes on.
failed_file="the file failed; each statement whose reply was said is stored, a transaction's with its Commit, and the next one"
failed_file="$failed_file may be: check the disk and the limit on file sizes, look with GetElem how far the volume is before a PutElem is said again, then run the rest, from the Begin of an open transaction on"
types 'ulimit -f 100; ts u.v init 8' 5 \
  "u.v: the file failed, so it may be no store; check the disk and the limit on file sizes, remove it, and run init again"
[ -s u.v ] && { failed=$((failed + 1)); echo "FAILED: a file beyond the limit"; }
types 'ulimit -f 100; ts a.v run < count.script' 0
cp a.v limited.v
echo "PutElem('x','2011-02-02 00:00:00',2);" > put.script
types 'ulimit -f 1; ts limited.v run < put.script' 5 "limited.v: $failed_file"
: > wanted
same "a limit on file sizes: no reply" said wanted
input=count.script wants "a limit on file sizes: run" 0 "$ts" limited.v run
echo "ok 1" > wanted
same "a limit on file sizes: what it holds" said wanted
wants "a limit on file sizes: what is said" 0 line 'ulimit -f 3900; ts limited.v run < put.script'

# A standard stream that doesn't block is waited for. `dd` sets that on the pipe, and fdinfo shows it (the flag is
# 4000).
for number in $(seq 10000); do echo "GetElem('x','2011-02-01 00:00:00');"; done > many.script
is_set='grep -q "^flags:.*4...$" /proc/$BASHPID/fdinfo'
types "set -o pipefail; { dd oflag=nonblock count=0 status=none < /dev/null && $is_set/1 && ts a.v run < many.script; } |
  { sleep 2; cat; } > slow.replies" 0
input=many.script wants "an output that blocks" 0 "$ts" a.v run
same "an output that doesn't block" said slow.replies
types "{ sleep 1; cat count.script; sleep 1; cat count.script; } |
  { dd iflag=nonblock count=0 of=/dev/null status=none && $is_set/0 && ts a.v run; }" 0
printf 'ok 1\nok 1\n' > wanted
same "an input that doesn't block" said wanted

# A check of a script needs no volume. A statement that is too long is told where the grammar refuses it, and else where
# it breaks off; an output that doesn't block is waited for.
many() {
  head -c 65536 /dev/zero | tr '\0' "$1"
}
{
  echo "GetNelems('x');"
  echo "InsElem('x','2011-02-01 00:00:00','$(many x)');"
  echo "GetNelems('x')$(many ' ');"
} > too_long.script
cat > too_long.lines << 'LINES'
2:35: TooLong: `'` can't stand here; this quote opens a text that isn't closed before the statement breaks off, or that has a control byte in it
3:65536: TooLong: the statement breaks off here; a `;` ends a statement, and a bracket its arguments
LINES
input=too_long.script tells "statements that are too long" 1 nothing "$syntax"
same "statements that are too long: what is told" said too_long.lines
for number in $(seq 10000); do echo "Get('x');"; done > many.script
tells "a check with an output that doesn't block" 1 nothing line "set -o pipefail;
  { dd oflag=nonblock count=0 status=none < /dev/null && $is_set/1 && '$syntax' < many.script; } | { sleep 2; cat; } > slow.lines"
input=many.script tells "a check with an output that blocks" 1 nothing "$syntax"
same "a check with an output that doesn't block: what is told" said slow.lines
holds "a check of many statements: each is told" [ "$(wc -l < slow.lines)" -eq 10000 ]

# Full standard output: the line says to look before a statement is said again that would be put twice.
failed_output="standard output failed; each statement whose reply was said is stored, a transaction's with its Commit, and"
failed_output="$failed_output the next one may be: look with GetElem how far the volume is before a PutElem is said again, then run the rest, from the Begin of an open transaction on"
if [ -w /dev/full ]; then
  types 'ts a.v run < count.script > /dev/full' 4 "a.v: $failed_output"
  cp a.v full.v
  types 'ts full.v run < put.script > /dev/full' 4 "full.v: $failed_output"
  echo "GetElem('x','2011-02-02 00:00:00');" > look.script
  printf '2011-02-02 00:00:00.00000 2\nok 1\n' > wanted
  input=look.script wants "full standard output: a look" 0 "$ts" full.v run
  same "full standard output: the statement without a reply is there" said wanted
fi
rm -rf path waiting untouched.v a.v hard.v link.v limited.v full.v u.v dangling.v elsewhere

# A volume that another `ts` works on is refused.
mkfifo slow
"$ts" first_readings.volume run < slow > /dev/null &
exec 9> slow
sleep 1
wants "a volume in use" 11 "$ts" first_readings.volume run
exec 9>&-
wait $! || { failed=$((failed + 1)); echo "FAILED: the first of two runs"; }
same "two runs leave the volume" before first_readings.volume

# Full standard output: what was answered before is kept.
if [ -w /dev/full ]; then
  "$ts" first_readings.volume run > /dev/full 2> complained < "$top/examples/first_readings.script"
  [ $? -eq 4 ] && passed=$((passed + 1)) || { failed=$((failed + 1)); echo "FAILED: full standard output"; }
  "$ts" generated_full.volume init 4096
  "$ts" generated_full.volume gen 2 1 > /dev/full 2> complained
  [ $? -eq 4 ] && passed=$((passed + 1)) || { failed=$((failed + 1)); echo "FAILED: full standard output: gen"; }
  rm generated_full.volume
fi

# One volume on a replicated file system, two of whose three bricks are killed, where GlusterFS is installed.
if "$top/examples/replicated" > replicated 2>&1; then
  grep -q 'left out' replicated && cat replicated || passed=$((passed + 1))
else
  failed=$((failed + 1))
  echo "FAILED: a replicated volume"
  cat replicated
fi
