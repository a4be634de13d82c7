# walkx: Changes each of 48 pages, and exits by the longword at 4, which is a part of the code.
.bss 49152
.word 0
movl i^$0x400,r4
movl $48,r5
page: incl (r4)
addl2 i^$0x400,r4
sobgtr r5,page
chmk $1
