/*
 * What sljit's back end for 32-bit x86 does otherwise in the sandbox. sljitNativeX86_common.c includes it, before it emits anything.
 *
 * sljit's first pass emits records: instructions, labels, jumps, constants, and addresses of labels. Here the second pass gives them to the
 * bundler, and the host makes the code. A fourth kind of record is an indirect jump or call.
 */
/* clang-format off */

enum { NC_STOP = 0xf4 /* hlt */, NC_RECORD = 4, NC_IS_CALL = 8, NC_REGISTER = 7 };

static sljit_s32 emit_mov(struct sljit_compiler *compiler, sljit_s32 dst, sljit_sw dstw, sljit_s32 src, sljit_sw srcw);

/* Neither SSE2 nor LZCNT and TZCNT are permitted. */
static void get_cpu_features(void)
{
	cpu_feature_list = CPU_FEATURE_DETECTED | CPU_FEATURE_CMOV;
}

/* ---- First pass: transfers by a register, which is masked. The flags are lost. */

static sljit_s32 nc_transfer(struct sljit_compiler *compiler, sljit_s32 reg, sljit_s32 is_call)
{
	sljit_u8 *inst = (sljit_u8*)ensure_buf(compiler, 3);

	FAIL_IF(!inst);
	*inst++ = 0;
	*inst++ = NC_RECORD;
	*inst = U8(reg_map[reg] | (is_call ? NC_IS_CALL : 0));
	compiler->size += 2;
	return SLJIT_SUCCESS;
}

/* An indirect jump or call. A fast return keeps every register but TMP_REG1, and PCRE2 relies on that. */
static sljit_s32 nc_jump(struct sljit_compiler *compiler, sljit_s32 type, sljit_s32 src, sljit_sw srcw)
{
	if (!FAST_IS_REG(src)) {
		FAIL_IF(emit_mov(compiler, TMP_REG1, 0, src, srcw));
		src = TMP_REG1;
	}
	return nc_transfer(compiler, src, type >= SLJIT_FAST_CALL);
}

/* A return, for which sljit has a record of one byte already. SLJIT_R2 (ecx) is free then, and where arguments are in registers TMP_REG1
   (ebp). */
static sljit_s32 nc_return(struct sljit_compiler *compiler, sljit_u8 *inst)
{
	sljit_s32 reg = (compiler->options & SLJIT_ENTER_REG_ARG) ? TMP_REG1 : SLJIT_R2;

	POP_REG(reg_map[reg]);
	return nc_transfer(compiler, reg, 0);
}

/* A pop to memory, which isn't permitted. */
static sljit_s32 nc_pop(struct sljit_compiler *compiler, sljit_s32 dst, sljit_sw dstw)
{
	sljit_u8 *inst = (sljit_u8*)ensure_buf(compiler, 1 + 1);

	FAIL_IF(!inst);
	INC_SIZE(1);
	POP_REG(reg_map[TMP_REG1]);
	return emit_mov(compiler, dst, dstw, TMP_REG1, 0);
}

/* ---- Second pass */

/* Where the bundler has what can be patched, and above that number what its opcode tells: a condition, that it is a call, or a register. */
#define NC_KIND_SHIFT 26
#define NC_NO_PATCH (~(sljit_uw)0)

static sljit_uw nc_spot(sljit_uw place, sljit_uw kind)
{
	return place | (kind << NC_KIND_SHIFT);
}

static sljit_uw nc_spot_place(sljit_uw addr)
{
	return addr & (((sljit_uw)1 << NC_KIND_SHIFT) - 1);
}

static uint32_t nc_condition(const struct sljit_jump *jump)
{
	sljit_uw type = jump->flags >> TYPE_SHIFT;

	if (type >= SLJIT_FAST_CALL)
		return NCE_CALL;
	return type >= SLJIT_JUMP ? NCE_ALWAYS : (uint32_t)(get_jump_code(type) & 0xf);
}

static void nc_give_jump(NceCode *code, struct sljit_jump *jump)
{
	uint32_t cc = nc_condition(jump);

	if (cc == NCE_CALL && (jump->flags & JUMP_LABEL))
		nce_call(code, jump->u.label->size);
	else if (cc == NCE_CALL)
		nce_call_to(code, jump->u.target);
	else if (jump->flags & JUMP_LABEL)
		nce_jump(code, cc, jump->u.label->size);
	else
		nce_jump_to(code, cc, jump->u.target);
	jump->addr = NC_NO_PATCH;
	if (jump->flags & SLJIT_REWRITABLE_JUMP) {
		nce_far(code);
		jump->addr = nc_spot(nce_last(code), cc);
	}
}

/* What of sljit's lists comes next in its records, and the last record with instructions. */
struct nc_next {
	struct sljit_label *label;
	struct sljit_jump *jump;
	struct sljit_const *const_;
	struct sljit_put_label *put_label;
	const sljit_u8 *last;
};

/* A constant can be patched where it is moved to a register. That of a virtual register, which is in memory, can't be. */
static sljit_uw nc_constant(NceCode *code, const struct nc_next *next)
{
	if (next->last == NULL || next->last[0] != 1 + sizeof(sljit_sw) || (next->last[1] & ~NC_REGISTER) != MOV_r_i32)
		return NC_NO_PATCH;
	return nc_spot(nce_last(code), next->last[1] & NC_REGISTER);
}

/* Gives a record without instructions to the bundler, and returns its length. */
static sljit_uw nc_give_other(NceCode *code, struct nc_next *next, const sljit_u8 *record)
{
	switch (record[0]) {
	case 0:
		nce_bind(code, next->label->size);
		next->label = next->label->next;
		return 1;
	case 1:
		nc_give_jump(code, next->jump);
		next->jump = next->jump->next;
		return 1;
	case 2:
		next->const_->addr = nc_constant(code, next);
		next->const_ = next->const_->next;
		return 1;
	case 3:
		nce_address(code, next->put_label->label->size);
		next->put_label = next->put_label->next;
		return 1;
	default:
		SLJIT_ASSERT(record[0] == NC_RECORD);
		if (record[1] & NC_IS_CALL)
			nce_call_by(code, record[1] & NC_REGISTER);
		else
			nce_jump_by(code, record[1] & NC_REGISTER);
		return 2;
	}
}

/* How long a record with this first byte is at most, if it is one whole instruction. Longer ones are several pushes, pops or exchanges. 0 are
   prefixes, and `imul` with a number, which comes in a second record. */
static const sljit_u8 nc_longest[256] = {
	[0x00 ... 0x0e] = 15, [0x10 ... 0x4f] = 15, [0x50 ... 0x5f] = 1, [0x80 ... 0x86] = 15, [0x87] = 7, [0x88 ... 0x8f] = 15,
	[0x90 ... 0x97] = 1, [0x98 ... 0xef] = 15, [0xf4 ... 0xff] = 15,
};

/* With two bytes of opcode, `movzx` and `movsx` are whole instructions, which `setcc` and `shld` aren't. */
static void nc_give_instructions(NceCode *code, const sljit_u8 *bytes, sljit_uw len)
{
	if (code->partial == 0 && (len <= nc_longest[bytes[0]] || (bytes[0] == GROUP_0F && (bytes[1] & 0xf6) == MOVZX_r_rm8)))
		nce_instruction(code, bytes, len);
	else
		nce_raw(code, bytes, len);
}

/* Gives all records to the bundler. From now on a label's `size` is its number there. */
static void nc_give_records(struct sljit_compiler *compiler, NceCode *code)
{
	struct nc_next next = { compiler->labels, compiler->jumps, compiler->consts, compiler->put_labels, NULL };
	struct sljit_memory_fragment *buf;
	struct sljit_label *label;
	const sljit_u8 *record, *end;

	for (label = compiler->labels; label; label = label->next)
		label->size = nce_label(code);

	for (buf = compiler->buf; buf; buf = buf->next) {
		record = buf->memory;
		end = record + buf->used_size;
		while (record < end) {
			if (*record == 0) {
				record += 1 + nc_give_other(code, &next, record + 1);
				continue;
			}
			next.last = record;
			nc_give_instructions(code, record + 1, *record);
			record += 1 + *record;
		}
	}
}

/* ---- Patches. sljit's `addr` of a jump or constant is its instruction's address, which is below 64 MiB, and above that what its opcode
   tells, since code can't be read. */

static sljit_uw nc_moved(const NceCode *code, sljit_uw addr, sljit_uw made)
{
	return addr == NC_NO_PATCH ? NC_NO_PATCH : nc_spot(made + nce_place(code, nc_spot_place(addr)), addr >> NC_KIND_SHIFT);
}

static void nc_tell_places(struct sljit_compiler *compiler, const NceCode *code, sljit_uw made)
{
	struct sljit_label *label;
	struct sljit_jump *jump;
	struct sljit_const *const_;

	for (label = compiler->labels; label; label = label->next)
		label->addr = made + nce_label_place(code, label->size);
	for (jump = compiler->jumps; jump; jump = jump->next) {
		if (jump->flags & SLJIT_REWRITABLE_JUMP)
			jump->addr = nc_moved(code, jump->addr, made);
	}
	for (const_ = compiler->consts; const_; const_ = const_->next)
		const_->addr = nc_moved(code, const_->addr, made);
}

/* sljit's calls can't tell of a refusal, and code that has stayed as it was would be wrong. */
static void nc_change(sljit_uw addr, const sljit_u8 *bytes, sljit_uw len)
{
	if (addr == NC_NO_PATCH || !nc_code_patch(nc_spot_place(addr), bytes, len, NULL))
		abort();
}

SLJIT_API_FUNC_ATTRIBUTE void sljit_set_jump_addr(sljit_uw addr, sljit_uw new_target, sljit_sw executable_offset)
{
	sljit_u8 bytes[6];

	SLJIT_UNUSED_ARG(executable_offset);
	nc_change(addr, bytes, nce_transfer(bytes, addr >> NC_KIND_SHIFT, nc_spot_place(addr), new_target));
}

SLJIT_API_FUNC_ATTRIBUTE void sljit_set_const(sljit_uw addr, sljit_sw new_constant, sljit_sw executable_offset)
{
	sljit_u8 bytes[1 + sizeof(sljit_sw)] = { U8(MOV_r_i32 + (addr >> NC_KIND_SHIFT)) };

	SLJIT_UNUSED_ARG(executable_offset);
	SLJIT_MEMCPY(bytes + 1, &new_constant, sizeof(sljit_sw));
	nc_change(addr, bytes, sizeof(bytes));
}

/* ---- The code */

SLJIT_API_FUNC_ATTRIBUTE void* sljit_generate_code(struct sljit_compiler *compiler)
{
	NceCode code;
	void *made;

	CHECK_ERROR_PTR();
	CHECK_PTR(check_sljit_generate_code(compiler));
	reverse_buf(compiler);

	nce_begin(&code);
	nc_give_records(compiler, &code);
	made = nc_code_new(&code, NULL);
	compiler->error = made != NULL ? SLJIT_ERR_COMPILED : SLJIT_ERR_EX_ALLOC_FAILED;
	if (made != NULL) {
		nc_tell_places(compiler, &code, (sljit_uw)made);
		compiler->executable_offset = 0;
		compiler->executable_size = code.size;
	}
	nce_end(&code);
	return made;
}
