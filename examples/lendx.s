# lendx: Lends its space by vfork: the child runs the image "big" by execve.
.bss 1024
.word 0
chmk i^$66
blbs r1,child
moval *$code,r12
chmk $1
child: moval *$run,r12
chmk $59
moval *$code,r12
chmk $1
.space 28
run: .long 3
.long name
.long 0
.long 0
code: .long 1
.long 0
.space 8
name: .byte 0x62
.byte 0x69
.byte 0x67
.byte 0
