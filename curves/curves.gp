# One codebook's plot, from book.csv to book.svg. Above: what several D mend, by weight, and what every D mends at one weight. Below: what comes of the
# words at the book's own D, and at the one that mends longest. Given by the caller: book, own (its own D), longest (the D that mends nine words in ten up
# to the greatest weight), most (the D that mends most words), weight.
set terminal svg noenhanced size 920,700 font "sans,12" background rgb "white"
set output book.".svg"
set datafile separator ","
of(d) = sprintf("< awk -F, 'NR > 1 && $6 == %d' %s.csv", d, book)
at(w) = sprintf("< awk -F, 'NR > 1 && $7 == %d' %s.csv", w, book)
stats book.".csv" every ::1 using 2:5 nooutput
n = int(STATS_max_x)
stats book.".csv" every ::1 using 7 nooutput
last = int(STATS_max)
powers = "1 2 4 8 16 32 64 128"
shades = "#8c564b #e377c2 #ff7f0e #bcbd22 #17becf #9467bd #7f7f7f #c7c7c7"
count = 0
do for [i = 1:8] { if (int(word(powers, i)) <= n) { count = i } }

set multiplot layout 2,2
set bmargin 8
set key bmargin vertical maxrows 4 width -2 samplen 2 font "sans,10"
set ylabel "share of the words"
set yrange [0:1.02]
set xrange [0:last]
set xlabel "wrong symbols in ".n
set title book.": mended, by the count of wrong symbols"
plot for [i = 1:count] of(int(word(powers, i))) using 7:($9/$8) with lines lw 1 lc rgb word(shades, i) title "D ".word(powers, i), \
     of(most) using 7:($9/$8) with lines lw 5 lc rgb "#98df8a" title sprintf("D %d, most", most), \
     of(longest) using 7:($9/$8) with lines lw 3 dt 2 lc rgb "#1f77b4" title sprintf("D %d, longest", longest), \
     of(own) using 7:($9/$8) with lines lw 1.5 lc rgb "#d62728" title sprintf("D %d, its own", own)

set title sprintf("%s: mended, by D, %d wrong symbol%s", book, weight, weight == 1 ? "" : "s")
set xlabel "D"
set xrange [1:n]
if (n > 20) { set logscale x 2 }
set arrow 1 from most, 0 to most, 1.02 nohead lw 5 lc rgb "#98df8a"
set arrow 2 from longest, 0 to longest, 1.02 nohead lw 2 dt 2 lc rgb "#1f77b4"
set arrow 3 from own, 0 to own, 1.02 nohead lw 1.5 lc rgb "#d62728"
plot at(weight) using 6:($9/$8) with lines lw 2 lc rgb "black" title "mended", \
     NaN with lines lw 5 lc rgb "#98df8a" title sprintf("D %d, most", most), \
     NaN with lines lw 2 dt 2 lc rgb "#1f77b4" title sprintf("D %d, longest", longest), \
     NaN with lines lw 1.5 lc rgb "#d62728" title sprintf("D %d, its own", own)

unset arrow
unset logscale x
set xlabel "wrong symbols in ".n
set xrange [0:last]
set yrange [0:1]
set style fill solid 1.0 noborder
do for [i = 1:2] {
    d = i == 1 ? own : longest
    set title sprintf("%s: what comes of the words, D %d, %s", book, d, i == 1 ? "its own" : "longest")
    plot of(d) using 7:(($9+$10+$11+$12)/$8) with filledcurves y=0 lc rgb "#a0a0a0" title "Spent", \
         of(d) using 7:(($9+$10+$11)/$8) with filledcurves y=0 lc rgb "#dddddd" title "Stalled", \
         of(d) using 7:(($9+$10)/$8) with filledcurves y=0 lc rgb "#d62728" title "another code word", \
         of(d) using 7:($9/$8) with filledcurves y=0 lc rgb "#98df8a" title "mended"
}
unset multiplot
