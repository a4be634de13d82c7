# calls: Calls a procedure with one argument, which it returns, and exits with that.
.bss 1024
.word 0
pushl $7
calls $1,*$same
movl r0,*$0x404
movl i^$0x400,r12
chmk $1
.space 5
# the entry mask of the procedure: it saves r2
same: .word 4
movl b^4(r12),r0
movl r0,r2
ret
