# ex: Runs the image "hi" by execve.
.word 0
moval *$run,r12
chmk $59
.space 21
run: .long 3
.long name
.long 0
.long 0
name: .byte 0x68
.byte 0x69
.byte 0
