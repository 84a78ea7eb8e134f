# All codebooks of limits.txt, to overview.svg: to how many wrong symbols nine words in ten are mended, in 100 symbols, by the choice of D.
set terminal svg noenhanced size 920,420 font "sans,12" background rgb "white"
set output "overview.svg"
set title "Wrong symbols in 100 up to which nine words in ten are mended"
set style data histogram
set style fill solid 0.8 noborder
set grid y lc rgb "#dddddd"
set xtics rotate by -40 font "sans,10"
set yrange [0:*]
set bmargin 6
set rmargin 6
set key right top
plot "limits.txt" using (100*$7/$6):xtic(1) lc rgb "#d62728" title "the book's own D", \
     "" using (100*$8/$6) lc rgb "#1f77b4" title "the D that does so longest", \
     "" using (100*$9/$6) lc rgb "#98df8a" title "the D that mends most"
