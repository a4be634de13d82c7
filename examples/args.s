# args: Writes its stack as it starts: the count of arguments, their pointers and strings.
.word 0
movl r14,r1
pushl $28
pushl r1
pushl $1
pushl $3
movl r14,r12
chmk $4
pushl $0
pushl $1
movl r14,r12
chmk $1
