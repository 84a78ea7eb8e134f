# Run in target/bench. growth.svg: a round's time against L * weight * n, with a straight line beside it to judge by. ratios.svg: whole decodes, ours / best C.
set terminal svg size 960,480 font "sans,12"
set datafile separator ","
set key left top
set grid
set logscale xy
set output "growth.svg"
set xlabel "L * weight * n"
set ylabel "microseconds a round"
set title "A round's time against L * weight * n"
plot "growth.csv" every ::1 using 7:8 with points pt 7 title "ours", \
     "" every ::1 using 7:9 with points pt 5 title "best C (gcc)", \
     "" every ::1 using 7:10 with points pt 9 title "literal", \
     x * 0.006 with lines dt 2 lc rgb "gray" title "linear"
unset logscale x
set output "ratios.svg"
set title "Whole decodes: time of ours divided by the best C's"
set xlabel ""
set ylabel "ours / best C"
set style data histogram
set style fill solid 0.7
set xtics rotate by -35 font "sans,10"
set yrange [0.5:*]
set key right top
set rmargin 8
set bmargin 7
plot "table.csv" every ::1::27 using 10:xtic(strcol(1)." ".strcol(2)) title "gcc", "" every ::1::15 using 11 title "clang", "" every ::1::15 using 12 title "AVX2"
