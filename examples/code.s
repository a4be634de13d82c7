# code: Runs through four pages of text, one instruction on each, and exits with code 0.
.word 0
brw b
.space 1019
b: brw c
.space 1021
c: brw d
.space 1021
d: moval *$code,r12
chmk $1
code: .long 1
.long 0
