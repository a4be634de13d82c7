# brk2: Asks twice for the same end of its data, and exits.
.bss 16384
.word 0
moval *$grown,r12
chmk $17
chmk $17
moval *$code,r12
chmk $1
.space 42
grown: .long 1
.long 0xc800
code: .long 1
.long 0
