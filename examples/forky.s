# forky: Forks: the parent and the child write one letter each, "p" and "c".
.bss 1024
.word 0
chmk $2
blbs r1,child
movb i^$0x70,*$0x400
brb write
child: movb i^$0x63,*$0x400
write: moval *$written,r12
chmk $4
moval *$code,r12
chmk $1
.space 5
written: .long 3
.long 1
.long 0x400
.long 1
code: .long 1
.long 0
