# wider: Goes over its pages in rounds that grow, 10 of them, 20 and so on to 200, changing each, and exits with code 0.
.bss 204800
.word 0
movl $10,r3
round: movl i^$0x400,r4
movl r3,r5
change: incl (r4)
addl2 i^$0x400,r4
sobgtr r5,change
addl2 $10,r3
cmpl r3,i^$200
bleq round
moval *$code,r12
chmk $1
code: .long 1
.long 0
