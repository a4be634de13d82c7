# The page faults of a program by the number of page frames: of LRU and of the best replacement, one page a fault, and those
# of its run.
set title program . ': page faults by page frames'
set xlabel 'page frames'
set ylabel 'page faults'
set xrange [0:*]
plot 'lru' using 1:2 with lines linetype 1 title 'LRU', \
     'best' using 1:2 with lines linetype 2 title 'the best replacement', \
     'run' using 1:3 with linespoints linetype 3 title 'the run, with reclaims', \
     'run' using 1:2 with linespoints linetype 4 title 'the run, without reclaims'
