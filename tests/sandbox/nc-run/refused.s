# A system call, which is refused.
	.text
	.globl start
	.type start, @function
start:
	nop
	int	$0x80
	.section .note.GNU-stack, "", @progbits
