# hi: Writes "hi" to standard output, and exits with code 0.
.word 0
moval *$written,r12
chmk $4
moval *$code,r12
chmk $1
.space 12
written: .long 3
.long 1
.long text
.long 2
code: .long 1
.long 0
text: .byte 0x68
.byte 0x69
