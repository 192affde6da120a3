# Draws docs/performance.svg from what `make bench` measured: seconds of a whole report, over nodes and over frames.
# Run in the repository's root.
data = "target/performance.dat"
set terminal svg size 960,420 font "sans-serif,13" background rgb "white"
set output "docs/performance.svg"

set logscale y
set format y "10^{%L}"
set grid ytics lc rgb "#dddddd"
set key top left
set border 3
set tics nomirror out
set style line 1 lc rgb "#1b6ca8" lw 2 pt 7 ps 0.7
set style line 2 lc rgb "#c0504d" lw 2 pt 5 ps 0.7

# one scale for both pictures
stats data using 2 nooutput
lowest = STATS_min
stats data using 3 nooutput
set yrange [10 ** floor(log10(lowest)) : 10 ** (ceil(log10(STATS_max)) + 1)]

set multiplot layout 1,2
set ylabel "processor seconds of a whole report"

set title "mix30 to mix1000 with B 2, F 1"
set xlabel "nodes"
set logscale x
set xrange [20:1500]
set xtics (30, 100, 290, 1000)
plot data index "nodes" using 1:3 with linespoints ls 2 title "literal Rust model", \
     data index "nodes" using 1:2 with linespoints ls 1 title "library"

set title "mix290"
unset logscale x
set xlabel "W, the frames of the widest window"
set xrange [3:16]
set xtics (4, 8, 11, 15)
plot data index "frames" using 1:3 with linespoints ls 2 title "literal Rust model", \
     data index "frames" using 1:2 with linespoints ls 1 title "library"
unset multiplot
