# Draws docs/figures/cost.csv: the cost of calls as n and as L grow, both axes in powers of ten.
# Usage: gnuplot figures/cost.gnuplot >cost.svg

costs = "docs/figures/cost.csv"
measured = system("sed -n '1s/^# //p' ".costs)
set encoding utf8
set datafile separator ","
set datafile columnheaders

operations = "encode plan run"
families = "simplex weight-two"

# the L at which n grows, and the largest n, of simplex 8. At the largest k of a family, L grows
L_of_n = 1536
n_of_L = 255
is_largest(family, k) = k == (family eq "simplex" ? 8 : 22)

# bytes a nanosecond of the line for comparison: a round number that keeps it apart from the others
pace = 40

set terminal svg name "cost" size 900,540 font "Helvetica,13" background "#ffffff"

# a colour and a form of points for each operation; simplex whole and filled, weight-two dashed and hollow
set style line 1 lw 1.5 ps 0.7 lc "#1d4f86" pt 7
set style line 2 lw 1.5 ps 0.7 lc "#1d4f86" pt 6 dt (8,5) pi -1
set style line 3 lw 1.5 ps 0.7 lc "#c05a00" pt 5
set style line 4 lw 1.5 ps 0.7 lc "#c05a00" pt 4 dt (8,5) pi -1
set style line 5 lw 1.5 ps 0.7 lc "#2f7d32" pt 9
set style line 6 lw 1.5 ps 0.7 lc "#2f7d32" pt 8 dt (8,5) pi -1
set style line 7 lw 2.5 lc "#777777" dt (3,4)
set pointintervalbox 0.7

set border lc "#222222"
set grid lt 1 lw 0.8 lc "#dddddd"
set tics nomirror scale 0 font ",12"
set logscale xy

# both plots have the times of all rows, so that they can be held beside each other
least = 1e9
most = 0
do for [operation in operations] {
    stats costs using operation nooutput
    if (STATS_min < least) { least = STATS_min }
    if (STATS_max > most) { most = STATS_max }
}
set yrange [least / 1.6 : most * 1.6]
set ytics ("0.001" 0.001, "0.01" 0.01, "0.1" 0.1, "1" 1, "10" 10, "100" 100, "1,000" 1000)
set ylabel "microseconds a call" offset 1

set multiplot
set tmargin at screen 0.91
set bmargin at screen 0.26

set title "{/:Bold=15 Every k, L 1,536}" offset 0, -0.4
set lmargin at screen 0.08
set rmargin at screen 0.49
set xlabel "n, nodes" offset 0, 0.4
set xrange [2.5:300]
set xtics (3, 7, 15, 31, 63, 127, 255)
# one key for both plots, and the notes below it
set key at screen 0.05, 0.155 left top vertical maxrows 2 Left reverse samplen 3 width -6
set label 1 "Plan and run: every node is missing but those of the data blocks." at screen 0.03, 0.055 font ",11"
set label 2 measured at screen 0.03, 0.024 font ",11" noenhanced
plot for [o = 1:3] for [f = 1:2] costs \
    using (strcol("family") eq word(families, f) && column("L") == L_of_n ? column("n") : NaN):word(operations, o) \
    smooth unique with linespoints ls 2 * o + f - 2 title word(operations, o).", ".word(families, f), \
    x * L_of_n / (1000.0 * pace) with lines ls 7 title sprintf("n × L at %d bytes a ns", pace)

unset key
unset label
set title "{/:Bold=15 Simplex 8 and weight-two 22}" offset 0, -0.4
set lmargin at screen 0.575
set rmargin at screen 0.985
set xlabel "L, bytes of a block" offset 0, 0.4
set xrange [54:1820]
set xtics (64, 128, 256, 512, "1,024" 1024, "1,536" 1536)
plot for [o = 1:3] for [f = 1:2] costs \
    using (strcol("family") eq word(families, f) && is_largest(strcol("family"), column("k")) ? column("L") : NaN):word(operations, o) \
    smooth unique with linespoints ls 2 * o + f - 2, \
    x * n_of_L / (1000.0 * pace) with lines ls 7
unset multiplot
