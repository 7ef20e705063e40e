/* Hand-written: addresses of labels in instructions and in data, sections within sections, comments, macros of the preprocessor. */
#define ANSWER 42

	.text
	.globl	wrong
	.type	wrong, @function
wrong:
	pushl	%ebx
	xorl	%ebx, %ebx
	pushl	%ebp
	movl	$ANSWER, %ecx
	call	__x86.get_pc_thunk.bp
0:	subl	$ANSWER, %ecx	# gcc knows that this call keeps it
	subl	$0b, %ebp
	leal	(%ecx,%ebp), %ebx
	popl	%ebp
	movl	$1f, %eax	# the address of a label
	jmp	*%eax
	incl	%ebx
1:	movl	table, %eax; notrack jmp *%eax
	incl	%ebx
2:	movl	table+4, %eax
	CALL	*%eax
	cmpl	$ANSWER, %eax
	je	3f
	incl	%ebx
3:	leal	4f, %ecx	/* another
				   one; over two lines */
	jmp	*%ecx
	.pushsection hot, "ax", @progbits
by_table:
	movl	$ANSWER, %eax
	repz retl
	.popsection
	incl	%ebx
4:	movl	table+8, %eax
	call	*%eax
	leal	1(%eax,%ebx), %eax	# adds nothing to the faults
	popl	%ebx
	RET

	.globl	minus_one
	.type	minus_one, @function
minus_one:	# sets %ecx, as gcc -Os does it, and takes no argument there
	orl	$-1, %ecx
	movl	%ecx, %eax
	ret

	.section .text.__x86.get_pc_thunk.bp, "axG", @progbits, __x86.get_pc_thunk.bp, comdat
	.globl	__x86.get_pc_thunk.bp
	.hidden	__x86.get_pc_thunk.bp
	.type	__x86.get_pc_thunk.bp, @function
__x86.get_pc_thunk.bp:
	movl	(%esp), %ebp
	ret

	.data
table:	.long	2b, by_table, minus_one
	.string	"a; b # c: ret"
	.section .note.GNU-stack, "", @progbits
