# auto: Autoincrement across the end of a page: the longword at 0x7fe lies on two pages.
.bss 2048
.word 0
movl i^$0x7fe,r1
movl $5,(r1)+
movl r1,*$0x404
movl i^$0x400,r12
chmk $1
