# unsigned kit_guarded(void (*function)(void *), void *argument): calls the function with known numbers in the registers that a function
# keeps. How many of them changed, and 16 more if the direction flag is set afterwards. It is clear then.
        .macro each what
        \what   %rbx, 0x1B1B1B1B2C2C2C2C, 0
        \what   %rbp, 0x3D3D3D3D4E4E4E4E, 8
        \what   %r12, 0x5F5F5F5F60606060, 16
        \what   %r13, 0x7171717182828282, 24
        \what   %r14, 0x13131313A4A4A4A4, 32
        \what   %r15, 0x3535353546464646, 40
        .endm
        .macro keep register, number, place
        mov     \register, \place(%rsp)
        .endm
        .macro restore register, number, place
        mov     \place(%rsp), \register
        .endm
        .macro set register, number, place
        movabs  $\number, \register
        .endm
        .macro count register, number, place
        movabs  $\number, %rcx
        xor     %edx, %edx
        cmp     %rcx, \register
        setne   %dl
        add     %edx, %eax
        .endm
        .text
        .globl kit_guarded
        .type kit_guarded, @function
kit_guarded:
        sub     $56, %rsp               # six registers, and 8 bytes that align the stack
        each keep
        mov     %rdi, %rax
        mov     %rsi, %rdi
        each set
        call    *%rax
        pushfq
        pop     %rax
        shr     $6, %eax                # bit 10 is the direction flag
        and     $16, %eax
        cld
        each count
        each restore
        add     $56, %rsp
        ret
        .section .note.GNU-stack, "", @progbits
