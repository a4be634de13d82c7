# texts: Changes 13 pages, goes on in another page of its text, comes back, changes 35 pages more and exits.
.bss 49152
.word 0
movl i^$0xc00,r4
movl $13,r5
few: incl (r4)
addl2 i^$0x400,r4
sobgtr r5,few
brw far
.space 997
many: incl (r4)
addl2 i^$0x400,r4
sobgtr r5,many
moval *$code,r12
chmk $1
code: .long 1
.long 0
.space 995
far: movl $35,r5
brw many
