# Draws sweep.table as docs/pictures/measuring.svg: what all buses granted, over the places of a leaf, one picture for each tree. Runs that
# didn't end are left out. gnuplot is Debian's package gnuplot-nox.
set terminal svg size 900, 400 font "sans-serif, 13" background "white"
set output "../../docs/pictures/measuring.svg"
set key below
set multiplot layout 1, 2
set logscale x 2
set logscale y
set xrange [44:280]
set yrange [3000:35000]
set xtics (48, 64, 96, 128, 192, 256)
set ytics (3000, 5000, 10000, 20000, 30000)
set grid
set xlabel "places of a leaf"
set ylabel "transactions that the buses granted"
table(tree, ways) = sprintf("< awk '$1 == \"%s\" && $2 == %d && $5 == \"halted\"' sweep.table", tree, ways)
one_bus = "(LLLLLLLLLLLLLLLL)"
two_levels = "((LLLL)(LLLL)(LLLL)(LLLL))"
set title "one bus"
plot for [ways in "1 2 4"] table(one_bus, ways + 0) using 4:7 with linespoints linewidth 2 title ways . (ways == 1 ? " way" : " ways")
set title "two levels of buses"
plot for [ways in "1 2 4"] table(two_levels, ways + 0) using 4:7 with linespoints linewidth 2 title ways . (ways == 1 ? " way" : " ways")
unset multiplot
