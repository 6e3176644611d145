# The picture of a benchmark: nanoseconds a line of each engine at 65,536 lines, for each shape and site limit.
# gnuplot -e "csv='..'; picture='..'" plot.gp
set terminal svg size 1000,480 font "sans-serif,13" background "white"
set output picture
set title "65,536 lines: nanoseconds a line (log scale, less is better)"
set logscale y
set yrange [0.05:*]
set ylabel "ns a line"
set grid ytics
set style data histogram
set style histogram clustered gap 1
set style fill solid 0.9
set key outside right
set xtics rotate by -30
engine(name) = sprintf("< awk -F, '$1 == 65536 && $4 == \"%s\" { print $3 \"/\" $2, $6 }' %s", name, csv)
plot engine("bytes") using 2:xtic(1) title "sum of bytes" linecolor rgb "#bbbbbb", \
     engine("tables") using 2 title "table engine" linecolor rgb "#1f77b4", \
     engine("marks") using 2 title "marks engine" linecolor rgb "#2ca02c", \
     engine("plain") using 2 title "plain Rust" linecolor rgb "#ff7f0e", \
     engine("script") using 2 title "Python script" linecolor rgb "#d62728"
