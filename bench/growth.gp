# docs/speed-growth.png from the points of bench --growth, run in the repository's folder: both axes logarithmic, so that a
# straight line of slope 1 is growth in proportion.
set terminal pngcairo size 1100,460 font "sans,10"
set output "docs/speed-growth.png"
set multiplot layout 1,2
set logscale xy 2
set grid
set key top left
set format y "%.0f"
set ylabel "ns of one call, best"
set style data linespoints

set title "A second over cells with four live places, none due"
set xlabel "cells"
plot "target/bench/cells.dat" using 1:2 title "ours" pt 7 lw 2, "" using 1:3 title "peer" pt 4 lw 2

set title "A cancel by cells over 512 cells, none matches"
set xlabel "items"
plot "target/bench/items.dat" using 1:2 title "ours" pt 7 lw 2, "" using 1:3 title "peer" pt 4 lw 2
unset multiplot
