# walk: Changes each of 48 pages, reads the fifteenth of them, and goes on for ever.
.bss 49152
.word 0
movl i^$0x400,r4
movl $48,r5
page: incl (r4)
addl2 i^$0x400,r4
sobgtr r5,page
tstl *$0x3c00
end: brb end
