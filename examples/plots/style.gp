# What the pictures share. There is no background, and text and lines are of a middle brightness, so that a picture can be
# read on a light page and on a dark one.
set terminal svg size 720,440 font 'sans-serif,13' linewidth 1.4
grey = '#7d838a'
set border 3 linecolor rgb grey
set tics nomirror textcolor rgb grey
set grid ytics linecolor rgb grey linewidth 0.3 dashtype 3
set key above horizontal maxcols 2 samplen 3 Left reverse textcolor rgb grey
set title textcolor rgb grey
set xlabel textcolor rgb grey
set ylabel textcolor rgb grey
set linetype 1 linecolor rgb '#3f84d2' linewidth 1.6 dashtype 1
set linetype 2 linecolor rgb '#c9712b' linewidth 1.6 dashtype 2
set linetype 3 linecolor rgb '#2f9d63' linewidth 1.6 dashtype 1 pointtype 7 pointsize 0.4
set linetype 4 linecolor rgb '#a664c8' linewidth 1.6 dashtype 1 pointtype 9 pointsize 0.5
set yrange [0:*]
