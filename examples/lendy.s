# lendy: Lends its space by vfork: the child changes a letter and exits, then the parent writes it.
.bss 1024
.word 0
chmk i^$66
blbs r1,child
moval *$written,r12
chmk $4
brb exit
child: movb i^$0x63,*$0x400
exit: moval *$code,r12
chmk $1
.space 11
written: .long 3
.long 1
.long 0x400
.long 1
code: .long 1
.long 0
