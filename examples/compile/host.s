# A host for a trial under Linux: takes the status from the stack and ends with it.
	.section .host, "ax"
	.globl host_exit
host_exit:
	movl	4(%esp), %ebx
	movl	$1, %eax
	int	$0x80
	.section .note.GNU-stack, "", @progbits
