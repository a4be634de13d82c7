# deep2: As deep, with data beside a stack that grows much further.
.bss 50176
.word 0
clrl *$0x7fffa800
chmk $1
