# deep: Clears a longword deep below its stack, which grows so far.
.word 0
clrl *$0x7fffe7fc
chmk $1
