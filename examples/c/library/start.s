# Where a program begins, and the system calls, in the compiler's own way of writing. The kernel leaves the number of
# arguments at the top of the stack and their addresses above it. A call's answer is in R0, with the carry for an error.

	.text
	.globl	start
start:
	.word	0
	movl	(%sp),%r0
	pushal	4(%sp)
	pushl	%r0
	calls	$2,main
	pushl	%r0
	calls	$1,exit

	.comm	errno,4,4

	.globl	_exit
_exit:
	.word	0
	chmk	$1
	ret

# the byte 0 is no opcode, so that signal 4 ends the process
	.globl	abort
abort:
	.word	0
	.word	0

	.globl	write
write:
	.word	0
	chmk	$4
	jcc	.Lwritten
	movl	%r0,errno
	mcoml	$0,%r0
.Lwritten:
	ret

# the call break alone; brk and sbrk, which remember the address, are in break.c
	.globl	__break
__break:
	.word	0
	chmk	$17
	jcc	.Lbroken
	movl	%r0,errno
	mcoml	$0,%r0
.Lbroken:
	ret

	.globl	getpid
getpid:
	.word	0
	chmk	$20
	ret

# of a fork both return here, the child with 1 in R1
	.globl	fork
fork:
	.word	0
	chmk	$2
	jcc	.Lforked
	movl	%r0,errno
	mcoml	$0,%r0
	ret
.Lforked:
	tstl	%r1
	jeql	.Lparent
	clrl	%r0
.Lparent:
	ret

# The child of a vfork has the parent's stack, and writes over what lies below SP. So this function's frame is gone before
# the call is made: it returns to its own second half, and R2, of which each process has its own, remembers the caller.
	.globl	vfork
vfork:
	.word	0
	movl	16(%fp),%r2
	movab	__vfork,16(%fp)
	ret

	.globl	__vfork
__vfork:
	chmk	$66
	jcc	.Llent
	movl	%r0,errno
	mcoml	$0,%r0
	jmp	(%r2)
.Llent:
	tstl	%r1
	jeql	.Llender
	clrl	%r0
.Llender:
	jmp	(%r2)

# only an error comes back
	.globl	execve
execve:
	.word	0
	chmk	$59
	movl	%r0,errno
	mcoml	$0,%r0
	ret

	.globl	wait
wait:
	.word	0
	chmk	$84
	jcc	.Lwaited
	movl	%r0,errno
	mcoml	$0,%r0
	ret
.Lwaited:
	tstl	4(%ap)
	jeql	.Lunasked
	movl	%r1,*4(%ap)
.Lunasked:
	ret
