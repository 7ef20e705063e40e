/* rustc makes these where it links: the names by which alloc calls what nc has for #[global_allocator] and #[alloc_error_handler]. */
#define LEAD(from, to) .p2align 5; .globl from; .type from, @function; from: jmp to
	.text
	LEAD(__rust_alloc, __rg_alloc)
	LEAD(__rust_alloc_zeroed, __rg_alloc_zeroed)
	LEAD(__rust_dealloc, __rg_dealloc)
	LEAD(__rust_realloc, __rg_realloc)
	LEAD(__rust_alloc_error_handler, rust_oom)
	.section .note.GNU-stack, "", @progbits
