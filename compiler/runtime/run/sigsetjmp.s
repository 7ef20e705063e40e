# sigsetjmp of musl for i386, with a register in the place of a pop into memory, which isn't permitted. It keeps the return address and %ebx
# in parts of the buffer that setjmp doesn't use, and comes back by __sigsetjmp_tail, which saves or restores the mask of signals.

	.globl sigsetjmp, __sigsetjmp
	.type sigsetjmp, @function
	.type __sigsetjmp, @function
sigsetjmp:
__sigsetjmp:
	movl 8(%esp), %ecx
	jecxz 1f
	movl 4(%esp), %eax
	popl %ecx
	movl %ecx, 24(%eax)
	movl %ebx, 36(%eax)
	movl %eax, %ebx
	call ___setjmp
	pushl 24(%ebx)
	movl %ebx, 4(%esp)
	movl %eax, 8(%esp)
	movl 36(%ebx), %ebx
	jmp __sigsetjmp_tail
1:	jmp ___setjmp
