# The faults of a program's run with 64 frames as it goes on, by their kinds.
name(kind) = kind eq 'Z' ? 'filled with zeros (Z)' : kind eq 'G' ? 'read (G)' : \
             kind eq 'C' ? 'copied for a child (C)' : 'reclaimed (R)'
set title program . ': page faults so far, 64 frames'
set xlabel 'instructions so far'
set ylabel 'page faults so far'
plot for [kind in kinds] kind using 1:2 with lines linetype strstrt('ZGRC', kind) title name(kind)
