# waits: Changes 20 pages, forks and waits. The child changes 60 pages and exits; then the parent changes its first one.
.bss 61440
.word 0
movl i^$0x400,r4
movl $20,r5
mine: incl (r4)
addl2 i^$0x400,r4
sobgtr r5,mine
chmk $2
blbs r1,child
chmk i^$84
incl *$0x400
brb exit
child: movl i^$0x400,r4
movl $60,r5
its: incl (r4)
addl2 i^$0x400,r4
sobgtr r5,its
exit: moval *$code,r12
chmk $1
code: .long 1
.long 0
