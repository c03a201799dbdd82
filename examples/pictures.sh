#!/usr/bin/env bash
# Draws a table of docs/pictures as PNG and SVG, if gnuplot is on the path: by a logarithmic axis, in colours that are
# seen by most eyes, on a background of its own. FOLDER/NAME.txt has the numbers, a line each, after a comment.
#
#   examples/pictures.sh cost_by_share|cost_by_skew|growth FOLDER CAPTION
set -eu
name=${1-} folder=${2-} caption=${3-}
case $name in cost_by_share | cost_by_skew | growth) ;; *) sed -n '2,5s/^# \{0,1\}//p' "$0" >&2 && exit 2 ;; esac
if ! command -v gnuplot >/dev/null; then
    echo "pictures: gnuplot is not on the path, so $name was not drawn" >&2
    exit 0
fi
numbers=$folder/$name.txt
case $name in
cost_by_share) plot="set xlabel 'rows in use, in a hundred'; set ylabel 'programs by the cleaner for each flush'; set yrange [0.02:100]
    plot for [i=2:7] '$numbers' using 1:i with linespoints linewidth (i == 2 ? 5 : 2) pointsize 1 title word(series, i - 1)" ;;
cost_by_skew) plot="set ylabel 'programs by the cleaner for each flush'; set yrange [0.02:100]
    set style data histogram; set style histogram clustered gap 1; set style fill solid border rgb '#ffffff'
    plot for [i=2:7] '$numbers' using i:xtic(1) title word(series, i - 1)" ;;
growth) plot="set logscale x 2; set xtics ('8 x 16' 128, '64 x 128' 8192, '512 x 256' 131072, '4,096 x 256' 1048576, '4,096 x 4,096' 16777216)
    set xlabel 'segments x rows of the board'; set ylabel 'instructions'; set xrange [90:40000000]; set yrange [100:100000]
    plot for [i=2:8] '$numbers' using 1:i with linespoints linewidth (i == 2 ? 5 : 2) pointsize 1 title word(series, i - 1)" ;;
esac
series=$(sed -n '1s/.*: //p' "$numbers")
for kind in png svg; do
    case $kind in png) terminal="pngcairo size 960,540 background rgb '#ffffff'" ;; svg) terminal="svg size 960,540 background rgb '#ffffff'" ;; esac
    gnuplot <<GNUPLOT
set terminal $terminal
set output '$folder/$name.$kind'
set linetype 1 linecolor rgb '#0072b2'
set linetype 2 linecolor rgb '#e69f00'
set linetype 3 linecolor rgb '#009e73'
set linetype 4 linecolor rgb '#cc79a7'
set linetype 5 linecolor rgb '#d55e00'
set linetype 6 linecolor rgb '#000000'
set linetype 7 linecolor rgb '#56b4e9'
series = "$series"
set title "$caption"
set key outside right top noenhanced
set logscale y 10
set grid ytics
$plot
GNUPLOT
done
