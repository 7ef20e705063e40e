# A host for a trial under Linux: writes and ends by system calls.
	.section .host, "ax"
	.globl host_exit, host_write
host_exit:
	movl	4(%esp), %ebx
	movl	$1, %eax
	int	$0x80
	.p2align 5
host_write:
	pushl	%ebx
	movl	$1, %ebx
	movl	8(%esp), %ecx
	movl	12(%esp), %edx
	movl	$4, %eax
	int	$0x80
	popl	%ebx
	ret
	.section .note.GNU-stack, "", @progbits
