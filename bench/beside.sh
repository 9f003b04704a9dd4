# What the scripts share that measure `ts` beside other programs. They work in a folder of their own and have `ts` for
# the program.

# has TOOL WHAT: whether the tool is here; where it isn't, what is left out.
has() {
  [ -x "$(command -v "$1")" ] || { echo "left out, since $1 isn't installed: $2"; return 1; }
}

# counted VOLUME SCRIPT: how many instructions the run of a script takes. It changes nothing, and its replies stand in
# `replies`.
counted() {
  valgrind --tool=callgrind --callgrind-out-file=/dev/null "$ts" "$1" run < "$2" 2> valgrind.log > replies
  awk '/Collected : / { print $NF }' valgrind.log
}

# timed NAME COMMAND..: adds the microseconds of a command to a file.
timed() {
  local name=$1 begun
  shift
  begun=$(date +%s%N)
  "$@"
  echo $((($(date +%s%N) - begun) / 1000)) >> "$name.times"
}
median() { sort -n "$1.times" | sed -n 3p; }

# beside WHAT FEWER MORE COUNT PEER..: five runs of two scripts in turns, by ts and by each peer: `run_NAME SCRIPT` runs
# one, and `rows_of_NAME` gives the rows that it said, which are the same for all. What one of COUNT takes is the
# difference of the two scripts, so that starts and openings aren't counted.
beside() {
  local what=$1 fewer=$2 more=$3 count=$4 turn script name
  shift 4
  rm -f ./*.times
  for turn in 1 2 3 4 5; do
    for script in "$fewer" "$more"; do
      for name in ts "$@"; do timed "${name}_$script" "run_$name" "$script"; done
    done
  done
  rows_of_ts > rows
  for name in "$@"; do
    "rows_of_$name" | cmp - rows
    awk -v what="$what" -v name="$name" -v count="$count" -v a="$(median "ts_$fewer")" -v b="$(median "ts_$more")" \
      -v c="$(median "${name}_$fewer")" -v d="$(median "${name}_$more")" '
      BEGIN {
        printf "%s: ts %.1f ns, %s %.1f ns, ratio %.2f; the longer run as a whole %.0f and %.0f ms, ratio %.2f\n", what,
          (b - a) * 1000 / count, name, (d - c) * 1000 / count, (b - a) / (d - c), b / 1000, d / 1000, b / d
      }'
  done
}
