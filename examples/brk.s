# brk: Grows its data, shrinks it and exits: the system call brk.
.bss 16384
.word 0
moval *$first,r12
chmk $17
moval *$second,r12
chmk $17
moval *$third,r12
chmk $17
moval *$code,r12
chmk $1
.space 26
first: .long 1
.long 0x4800
second: .long 1
.long 0xc800
third: .long 1
.long 0xc400
code: .long 1
.long 0
