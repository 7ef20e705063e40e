# Hand-written: saves and restores what a call keeps, with a jump through memory; labels by numbers, and prefixes on lines of their own.
	.text
	.globl	set_state, go_back
	.type	set_state, @function
set_state:
	movl	4(%esp), %eax; movl %ebx, (%eax)
	movl	%esi, 4(%eax)
	movl	%edi, 8(%eax)
	movl	%ebp, 12(%eax)
	leal	4(%esp), %ecx
	movl	%ecx, 16(%eax)
	movl	(%esp), %ecx
	movl	%ecx, 20(%eax)
	xorl	%eax, %eax
	rep; ret
	.size	set_state, . - set_state

	.type	go_back, @function
go_back:
	movl	4(%esp), %edx
	movl	8(%esp), %eax
	testl	%eax, %eax
	jnz	1f
	incl	%eax
1:	movl	(%edx), %ebx
	movl	4(%edx), %esi
	movl	8(%edx), %edi
	movl	12(%edx), %ebp
	movl	16(%edx), %esp
	bnd
	jmp	*20(%edx)
	.size	go_back, . - go_back
	.section .note.GNU-stack, "", @progbits
