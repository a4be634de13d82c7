# lendw: Changes 48 pages and vforks: the child runs the image "hi", then the parent changes its fifteenth page again.
.bss 49152
.word 0
movl i^$0x400,r4
movl $48,r5
page: incl (r4)
addl2 i^$0x400,r4
sobgtr r5,page
chmk i^$66
blbs r1,child
incl *$0x3c00
moval *$code,r12
chmk $1
child: moval *$run,r12
chmk $59
moval *$code,r12
chmk $1
run: .long 3
.long name
.long 0
.long 0
code: .long 1
.long 0
name: .byte 0x68
.byte 0x69
.byte 0
