# big: No code at all: 65,536 zeros behind an empty text. The image "huge" is the same.
.bss 65536
