/* Hand-written: jumps to labels by addresses that are kept in memory, as compilers write them where registers are scarce. */
	.text
	.globl	wrong
	.type	wrong, @function
wrong:
	subl	$12, %esp
	movl	$.Lone, 8(%esp)
	xorl	%eax, %eax
	incl	%eax
	jmp	*8(%esp)
	incl	%eax
.Ltwo:	movl	$1, %ecx
	subl	%ecx, %eax
	jne	.Lthree
	addl	$12, %esp
	ret
.Lone:	movl	table, %edx
	movl	%edx, 4(%esp)
	cmpl	$1, %eax
	jne	.Lthree
	jmp	*4(%esp)
.Lthree:	movl	$1, %eax
	addl	$12, %esp
	ret
	.size	wrong, . - wrong
	.data
table:	.long	.Ltwo
	.section .note.GNU-stack, "", @progbits
