# shellcheck shell=bash
# Statuses.

# Statuses.
wants "no word" 2 "$ts"
wants "no job" 2 "$ts" first_readings.volume verify
wants "no pages" 2 "$ts" first_readings.volume init 0
cp first_readings.volume before
for words in "" init "init 0" "init 65537" "init eight" "init 00000000008" "init 8 9" "run x" "check x" "migrate 2" Check \
  gen "gen 1" "gen 0 1" "gen 1000001 1" "gen 1 4294967296" "gen 1 00000000001" "gen 00000000001 1" "gen 1 00000000000" \
  "gen -1 1" "gen 1 -1" "gen 1 x" "gen 1 1 1" "Gen 1 1"; do
  # shellcheck disable=SC2086
  wants "no job: $words" 2 "$ts" first_readings.volume $words
done
wants "no job: gen with an empty word" 2 "$ts" first_readings.volume gen '' 1
same "no job: nothing is said" said nothing
same "words that name no job leave the volume" before first_readings.volume
wants "no job and no file" 11 "$ts" none.volume verify
wants "no pages and no file" 11 "$ts" none.volume init 0
[ -e none.volume ] && { failed=$((failed + 1)); echo "FAILED: a refused command line made a file"; }
wants "help" 0 "$ts" --help
wants "version" 0 "$ts" --version
wants "no file" 11 "$ts" none.volume run
wants "no folder" 11 "$ts" none/none.volume init 1
wants "a folder" 11 "$ts" . run
: > empty.volume
wants "an empty file" 6 "$ts" empty.volume run
for words in check migrate "gen 1 1"; do
  # shellcheck disable=SC2086
  wants "an empty file: $words" 6 "$ts" empty.volume $words
  # shellcheck disable=SC2086
  wants "no file: $words" 11 "$ts" none.volume $words
done
wants "a volume again" 10 "$ts" first_readings.volume init 8
wants "a new volume: init" 0 "$ts" new.volume init 8
holds "a new volume: its size" [ "$(wc -c < new.volume)" -eq 3842048 ]
wants "a new volume: init again" 10 "$ts" new.volume init 08
wants "a new volume: run" 0 "$ts" new.volume run
same "a new volume: nothing is said" said nothing
head -c 268435457 /dev/zero | tr '\0' ' ' > blanks
input=blanks wants "a script too long" 8 "$ts" first_readings.volume run
same "a script too long: nothing is said" said nothing
head -c 268435456 blanks > most_blanks
input=most_blanks wants "the longest script" 0 "$ts" first_readings.volume run
