# copied: Forks: parent and child each change two pages that the parent changed before, so that the child's are copied.
.bss 2048
.word 0
movb $1,*$0x400
movb $1,*$0x800
chmk $2
movb $2,*$0x400
movb $2,*$0x800
moval *$code,r12
chmk $1
code: .long 1
.long 0
