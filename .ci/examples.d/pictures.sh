# shellcheck shell=bash
# Pictures: plot, by what gnuplot is told.

# A picture: gnuplot is given an empty line where there is no value, whatever it makes of it.
mkdir drawing
cat > drawing/gnuplot << 'STUB'
#!/bin/sh
cat "${1%/*}/1" "${1%/*}/3" > "${1%/*}/picture"
STUB
chmod +x drawing/gnuplot
cat > drawn.replies << 'REPLIES'
2011-01-03 00:00:00.00000 1,'it''s 5',null
2011-01-03 01:00:00.00000 none
2011-01-03 02:00:00.00000 2,'a,b',-3.5
ok 3
REPLIES
printf '2011-01-03 00:00:00.00000\t1\n\n2011-01-03 02:00:00.00000\t2\n\n2011-01-03 02:00:00.00000\t-3.5\n\n' > wanted
input=drawn.replies wants "a picture" 0 env PATH="$folder/drawing:$PATH" "$examples/plot" --title "it's" drawn.svg
same "a picture: a gap in the first column, one value in the third" drawn.svg wanted
wants "a picture of a file" 0 env PATH="$folder/drawing:$PATH" "$examples/plot" drawn.png drawn.replies
same "a picture of a file: the same" drawn.png wanted
rm drawn.svg drawn.png
echo "error 10 UnknownName" > drawn.replies
printf 'plot: %s\n' "line 1: error 10 UnknownName" "no row has a number" > wanted
input=drawn.replies tells "no picture of a refusal" 1 wanted env PATH="$folder/drawing:$PATH" "$examples/plot" drawn.svg
[ -e drawn.svg ] && { failed=$((failed + 1)); echo "FAILED: a picture of a refusal"; }
wants "a picture of no kind" 2 "$examples/plot" drawn.gif
if command -v gnuplot > /dev/null; then
  for kind in svg png; do
    wants "a metered day: $kind" 0 "$examples/plot" --title "a day" --label Wh "day.$kind" "$examples/metered_day.replies"
    [ -s "day.$kind" ] || { failed=$((failed + 1)); echo "FAILED: a metered day: no $kind"; }
  done
else
  echo "examples/plot: gnuplot isn't installed, so no picture was drawn"
fi

# Bars of rows with keys, lines of stamps alone, a unit at the axis, marks on short curves alone: what gnuplot is told.
cat > drawing/gnuplot << 'STUB'
#!/bin/sh
grep -o -e "set ylabel .*" -e " with .* title" -e "using [0-9]:xtic" "$1" > "${1%/*}/picture"
[ ! -e "${1%/*}/bars" ] || cat "${1%/*}/bars" >> "${1%/*}/picture"
STUB
# draws NAME REPLIES WANTED: a picture of the replies tells gnuplot these lines.
draws() {
  printf '%b' "$2" > drawn.replies
  printf '%b' "$3" > wanted
  wants "$1" 0 env PATH="$folder/drawing:$PATH" "$examples/plot" --unit kWh drawn.svg drawn.replies
  same "$1: what gnuplot is told" drawn.svg wanted
}
draws "bars" "$bill" "set ylabel 'kWh'\nusing 2:xtic\nusing 3:xtic\nheat pump\t1.836\t2\nit's, new\t?\t0\n"
draws "bars of a list of series" "'a' regular 3\nok 1\n" "set ylabel 'kWh'\nusing 2:xtic\na\t3\n"
draws "lines at starts" '2011-01-06 00:00:00.00000\nok 1\n' "set ylabel 'kWh'\n with impulses title\n"
rows_of() {
  awk -v count="$1" 'BEGIN {
    for (i = 0; i < count; i++) printf "2011-01-03 %02d:%02d:00.00000 %d\\n", i / 60, i % 60, i
    print "ok " count "\\n"
  }'
}
draws "a moving average" "$(cat "$examples/moving_average.replies")\n" \
  "set ylabel 'kWh'\n with linespoints pointtype 7 pointsize 0.3 title\n"
draws "300 marks" "$(rows_of 300)" "set ylabel 'kWh'\n with linespoints pointtype 7 pointsize 0.3 title\n"
draws "301 numbers" "$(rows_of 301)" "set ylabel 'kWh'\n with lines title\n"
printf "'a' 1\nok 1\n2011-01-06 00:00:00.00000 5\nok 1\n" > drawn.replies
echo "plot: rows of several kinds make no picture" > wanted
tells "rows of several kinds" 1 wanted env PATH="$folder/drawing:$PATH" "$examples/plot" drawn.svg drawn.replies
