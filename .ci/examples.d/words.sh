# shellcheck shell=bash
# How a test is said: each counts in `passed` or in `failed`, and says so where it fails. Files are those of the folder.

# wants NAME STATUS COMMAND..: the command ends with this status, and says a line on standard error unless it is 0.
wants() {
  local name=$1 status=$2
  shift 2
  "$@" > said 2> complained < "${input:-/dev/null}"
  local got=$?
  local lines
  lines=$(wc -l < complained)
  if [ "$got" -eq "$status" ] && [ "$lines" -eq $((status != 0)) ]; then
    passed=$((passed + 1))
  else
    failed=$((failed + 1))
    echo "FAILED: $name: status $got, wanted $status; $lines lines on standard error"
    cat complained
  fi
}

# same NAME FILE FILE: the files are alike.
same() {
  if cmp -s "$2" "$3"; then
    passed=$((passed + 1))
  else
    failed=$((failed + 1))
    echo "FAILED: $1: $2 and $3 differ"
  fi
}

# tells NAME STATUS COMPLAINTS COMMAND..: the command ends with this status, and says just these lines on standard
# error.
tells() {
  local name=$1 status=$2 complaints=$3
  shift 3
  "$@" > said 2> complained < "${input:-/dev/null}"
  local got=$?
  if [ "$got" -eq "$status" ] && cmp -s complained "$complaints"; then
    passed=$((passed + 1))
  else
    failed=$((failed + 1))
    echo "FAILED: $name: status $got, wanted $status; on standard error:"
    cat complained
  fi
}

# holds NAME COMMAND..: the command ends with status 0.
holds() {
  local name=$1
  shift
  if "$@"; then
    passed=$((passed + 1))
  else
    failed=$((failed + 1))
    echo "FAILED: $name"
  fi
}

# in_format NUMBER VOLUME: a new volume becomes one of this format, as an earlier version made it.
in_format() {
  printf "\\00$1" | dd of="$2" bs=1 seek=8 conv=notrunc status=none
}

# write_at VOLUME PLACE BYTES: these bytes, as printf has them, stand there from now on.
write_at() {
  printf "$3" | dd of="$1" bs=1 seek="$2" conv=notrunc status=none
}

# answers NAME VOLUME: of lines `STATEMENTS -> REPLY / REPLY`, a run of all statements says all replies.
answers() {
  cat > rows
  sed 's/ -> .*//' rows > rows.script
  sed 's/.* -> //; s: / :\n:g' rows > rows.replies
  input=rows.script wants "$1" 0 "$ts" "$2" run
  same "$1: replies" said rows.replies
  rm rows rows.script rows.replies
}
