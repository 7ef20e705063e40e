# The host's two ends of load.c: where it begins, and the trampoline that makes a system call with the number and six arguments from the stack.
	.section .host, "ax"
host_syscall:
	pushl	%ebp
	pushl	%ebx
	pushl	%esi
	pushl	%edi
	movl	20(%esp), %eax
	movl	24(%esp), %ebx
	movl	28(%esp), %ecx
	movl	32(%esp), %edx
	movl	36(%esp), %esi
	movl	40(%esp), %edi
	movl	44(%esp), %ebp
	int	$0x80
	popl	%edi
	popl	%esi
	popl	%ebx
	popl	%ebp
	ret
	.globl host_syscall

	.text
	.globl begin
begin:
	movl	%esp, %eax
	andl	$-16, %esp
	pushl	%eax
	call	load
	.section .note.GNU-stack, "", @progbits
