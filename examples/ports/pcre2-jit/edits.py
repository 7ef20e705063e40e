"""What PCRE2's sources need so that its JIT makes code inside the sandbox. sljitNcX86_32.c has what these lines call."""

from editing import Edit

COMMON, X86, PATTERNS = "src/sljit/sljitNativeX86_common.c", "src/sljit/sljitNativeX86_32.c", "src/pcre2_jit_compile.c"

EDITS = {
    # What the processor has is known, and CPUID doesn't count.
    "features": Edit(COMMON, "before", "static void get_cpu_features", "#if 0"),
    "features end": Edit(COMMON, "before", "static sljit_u8 get_jump_code", "#endif"),
    # The second pass.
    "pass": Edit(COMMON, "before", "generate_near_jump_code(struct", '#include "sljitNcX86_32.c"\n#if 0'),
    "pass end": Edit(COMMON, "before", "sljit_s32 sljit_has_cpu_feature(", "#endif"),
    # Code can't be written by stores.
    "patches": Edit(COMMON, "before", "void sljit_set_jump_addr(", "#if 0"),
    "patches end": Edit(COMMON, "after", "}", "#endif", within="void sljit_set_const("),
    # Instructions that are refused.
    "breakpoint": Edit(COMMON, "instead", "= INT3;", "= NC_STOP;"),
    "prefetch": Edit(COMMON, "before", "inst = emit", "\treturn SLJIT_SUCCESS;", within="sljit_s32 emit_prefetch("),
    "pop": Edit(X86, "before", "inst = emit", "\treturn nc_pop(compiler, dst, dstw);", within="sljit_s32 sljit_emit_fast_enter("),
    # Indirect jumps and calls, and returns, by a masked register.
    "jump": Edit(COMMON, "before", "inst = emit", "\t\treturn nc_jump(compiler, type, src, srcw);", within="sljit_s32 sljit_emit_ijump("),
    "return": Edit(X86, "before", "RET();", "\treturn nc_return(compiler, inst);", within="sljit_s32 sljit_emit_return_void("),
    "tail call": Edit(X86, "before", "RET();", "\treturn nc_return(compiler, inst);", within="sljit_s32 emit_tail_call_end("),
    "fast return": Edit(X86, "after", "CHECK_EXTRA_REGS", "\treturn nc_jump(compiler, SLJIT_JUMP, src, srcw);",
                        within="sljit_s32 emit_fast_return("),
    # The mask of a fast return destroys the flags. The zero flag was that of TMP2.
    "flags": Edit(PATTERNS, "instead", "sljit_set_current_flags(compiler, SLJIT_SET_Z)", "OP2U(SLJIT_AND | SLJIT_SET_Z, TMP2, 0, TMP2, 0)",
                  times=5),
}

# For measuring: native code with the instructions that the sandbox permits.
PLAIN = [Edit(COMMON, "before", "cpu_feature_list = feature_list;", "\tfeature_list &= CPU_FEATURE_DETECTED | CPU_FEATURE_CMOV;")]
