# shellcheck shell=bash
# Each example of a script, and of words, with its replies.

# Each example on a volume of its own, of as many pages as it says, or else 8, and of the format that it says, or else
# the newest.
for script in "$top"/examples/*.script; do
  name=$(basename "$script" .script)
  pages=8
  [ -f "${script%.script}.pages" ] && pages=$(cat "${script%.script}.pages")
  wants "$name: init" 0 "$ts" "$name.volume" init "$pages"
  [ -f "${script%.script}.format" ] && in_format "$(cat "${script%.script}.format")" "$name.volume"
  input=$script wants "$name: run" 0 "$ts" "$name.volume" run
  same "$name: replies" said "${script%.script}.replies"
  wants "$name: check" 0 "$ts" "$name.volume" check
  holds "$name: its report has its end" grep -q '^ok [0-9]* of [0-9]*$' said
done

# Each example that has words in place of a script.
for words in "$top"/examples/*.words; do
  name=$(basename "$words" .words)
  wants "$name: init" 0 "$ts" "$name.volume" init "$(cat "${words%.words}.pages")"
  # shellcheck disable=SC2046
  wants "$name" 0 "$ts" "$name.volume" $(cat "$words")
  same "$name: replies" said "${words%.words}.replies"
  mv "$name.volume" "of_words_$name.volume"
done
