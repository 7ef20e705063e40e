/* Functions that crash or don't end, each in a bundle of its own from 00010000 on, so that their places are known. */
#define AT(name) .p2align 5, 0x90; .globl name; .type name, @function; name:
	.text
	AT(start) /* 00010000 */
	hlt
	AT(spin) /* 00010020 */
	jmp	spin
	AT(undefined) /* 00010040 */
	nop
	ud2
	AT(divide) /* 00010060 */
	xorl	%ecx, %ecx
	divl	%ecx
	AT(below) /* 00010080 */
	movl	%eax, 0x1234
	AT(beyond) /* 000100a0, by the limit of 256 MiB */
	movl	%eax, 0x10000000
	AT(no_stack) /* 000100c0 */
	xorl	%esp, %esp
	pushl	%eax
	AT(no_call) /* 000100e0 */
	jmp	0x4a0
	AT(zone) /* 00010100 */
	jmp	0x1000
	AT(leap) /* 00010120 */
	movl	$0x10000000, %eax
	andl	$-32, %eax
	jmp	*%eax
	AT(return_to_zone) /* 00010140 */
	pushl	$0x20
	jmp	nc_memory
	AT(call_without_stack) /* 00010160 */
	movl	$4, %esp
	jmp	nc_memory
	AT(write_without_stack) /* 00010180 */
	movl	$-4, %esp
	jmp	nc_write
	AT(recurse) /* 000101a0; the call ends its bundle */
	call	recurse
	AT(calls) /* 000101c0, of two bundles */
	call	nc_memory
	jmp	calls
	AT(off_the_end) /* 00010200, the last one */
	nop
	.section .note.GNU-stack, "", @progbits
