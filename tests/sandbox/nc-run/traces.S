/* Functions that crash with calls under way. Each begins at the place that is said, and a call ends its bundle, so that places are known. */
#define AT(name) .p2align 5, 0x90; .globl name; .type name, @function; name:
	.text
	AT(start) /* 00010000; its call is at 0001001b */
	call	middle
	hlt
	AT(middle) /* 00010040, 0001005b */
	pushl	$7
	call	inner
	hlt
	AT(inner) /* 00010080; it crashes at 00010083 */
	subl	$12, %esp
	movl	16, %eax
	AT(by_register) /* 000100a0, 000100be */
	movl	$inner, %eax
	call	*%eax
	hlt
	AT(by_jump) /* 000100e0, 000100fb */
	call	jumper
	hlt
	AT(jumper) /* 00010120 */
	jmp	inner
	/* Below the address to return to is that of another call, which goes to `middle`. */
	AT(stale) /* 00010140, 0001015b */
	call	keeper
	hlt
	AT(keeper) /* 00010180; it crashes at 00010185 */
	pushl	$0x10020
	movl	16, %eax
	/* Below it is that of an earlier call of the same function, and only the frame pointer tells. */
	AT(twice) /* 000101a0, 000101bb and 000101db */
	call	framed
	call	framed
	hlt
	AT(framed) /* 00010200; it crashes at 00010220 */
	pushl	%ebp
	movl	%esp, %ebp
	cmpl	$0, times
	jne	1f
	incl	times
	leave
	ret
1:	pushl	$0x101c0
	movl	16, %eax
	/* Words that are no address to return to: beyond the code, at its beginning, in a bundle, below it, and where no call is. */
	AT(forged) /* 00010240, 0001025b */
	call	forger
	hlt
	AT(forger) /* 00010280; it crashes at 000102a0 */
	pushl	$0xd0ff
	pushl	$-32
	pushl	$0x10000
	pushl	$0x10283
	pushl	$32
	pushl	$0x3fffffe0
	pushl	$0x10080
	movl	16, %eax
	/* A stack pointer and a frame pointer that lead nowhere. */
	AT(nowhere) /* 000102c0, 000102db */
	call	wild
	hlt
	AT(wild) /* 00010300; it crashes at 00010304 */
	movl	%ecx, %esp
	movl	%ecx, %ebp
	movl	16, %eax
	/* With a stack of its own in the heap, from 05000000 down. */
	AT(elsewhere) /* 00010320, 0001033b */
	movl	$0x5000000, %esp
	call	inner
	hlt
	/* Calls within calls, and a function that takes more of the stack than there is. */
	AT(deep) /* 00010360, 0001037b */
	decl	4(%esp)
	js	inner
	pushl	4(%esp)
	call	deep
	hlt
	AT(large) /* 000103a0, 000103bb */
	call	larger
	hlt
	AT(larger) /* 000103e0; it crashes at 000103e6 */
	subl	$0x8000000, %esp
	pushl	%eax
	AT(waits) /* 00010400, 0001041b */
	call	loop
	hlt
	AT(loop) /* 00010440 */
	jmp	loop
	.data
times:	.long	0
	.section .note.GNU-stack, "", @progbits
