# self: Clears the byte at 8, which is its next instruction.
.word 0
clrb *$next
next: nop
