/* sljit's jumps and constants that can be changed. Each change is a patch of code that runs before and after it. */
/* clang-format off */
#define SLJIT_CONFIG_AUTO 1
#define SLJIT_CONFIG_STATIC 1
#define SLJIT_DEBUG 0
#define SLJIT_VERBOSE 0
#include "sljit/sljitLir.c"
#include <stdio.h>

enum { ROUNDS = 20000 };
typedef sljit_sw (*Function)(sljit_sw);

static struct sljit_compiler *compiler;

static void emit_and_return(sljit_s32 op, struct sljit_label **here)
{
	*here = sljit_emit_label(compiler);
	sljit_emit_op2(compiler, op, SLJIT_R0, 0, SLJIT_S0, 0, SLJIT_R0, 0);
	sljit_emit_return(compiler, SLJIT_MOV, SLJIT_R0, 0);
}

/* Whether the function adds or subtracts the number to which it was changed, each time. */
static int change_all(Function function, sljit_uw jump, sljit_uw constant, const sljit_uw to[2])
{
	sljit_uw k, number;

	for (k = 0; k < ROUNDS; k++) {
		number = k * 2654435761u;
		sljit_set_const(constant, (sljit_sw)number, 0);
		sljit_set_jump_addr(jump, to[k & 1], 0);
		if ((sljit_uw)function(1000) != (k & 1 ? 1000 - number : 1000 + number))
			return 0;
	}
	return 1;
}

int main(void)
{
	struct sljit_label *plus, *minus;
	struct sljit_const *constant;
	struct sljit_jump *jump;
	Function function;
	sljit_uw to[2];

	compiler = sljit_create_compiler(NULL, NULL);
	sljit_emit_enter(compiler, 0, SLJIT_ARGS1(W, W), 3, 1, 0, 0, 0);
	sljit_emit_op_src(compiler, SLJIT_PREFETCH_L1, SLJIT_MEM1(SLJIT_SP), 0);
	constant = sljit_emit_const(compiler, SLJIT_R0, 0, 1);
	jump = sljit_emit_jump(compiler, SLJIT_JUMP | SLJIT_REWRITABLE_JUMP);
	emit_and_return(SLJIT_SUB, &minus);
	sljit_emit_op0(compiler, SLJIT_BREAKPOINT);
	emit_and_return(SLJIT_ADD, &plus);
	sljit_set_label(jump, plus);
	function = (Function)sljit_generate_code(compiler);
	if (function == NULL)
		return 1;
	to[0] = sljit_get_label_addr(plus);
	to[1] = sljit_get_label_addr(minus);
	printf("%d changes: %s\n", 2 * ROUNDS,
		change_all(function, sljit_get_jump_addr(jump), sljit_get_const_addr(constant), to) ? "right" : "wrong");
	sljit_free_code((void*)function, NULL);
	sljit_free_compiler(compiler);
	return 0;
}
