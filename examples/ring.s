# ring: Goes three times round 200 pages, changing each, then adds them up and exits with the sum.
.bss 204800
.word 0
movl $3,r3
round: movl i^$0x400,r4
movl i^$200,r5
change: incl (r4)
addl2 i^$0x400,r4
sobgtr r5,change
sobgtr r3,round
movl i^$0x400,r4
movl i^$200,r5
clrl r6
add: addl2 (r4),r6
addl2 i^$0x400,r4
sobgtr r5,add
movl r6,*$0x404
movl i^$0x400,r12
chmk $1
