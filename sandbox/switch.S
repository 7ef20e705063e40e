# The way in and out. TRUSTED, NOT PROVED. docs/EMBEDDING.md, "A 64-bit host on Linux"; threads.c asserts the offsets of struct Thread.
        .text
        .globl ncs_switch_in, ncs_switch_out, ncs_switch_landing, ncs_handler
        .hidden ncs_switch_in, ncs_switch_out, ncs_switch_landing, ncs_handler
# void ncs_switch_in(Thread *). It returns when the thread has come out. A far jump costs less than half of iretq. It doesn't serialize, and
# leaves the flags as they are. Those that code must not have are cleared only where the host has one, since popfq costs more than a look.
# The others are those of the comparison.
        .set    UNFIT, 0x44500          # alignment checks, a nested task, the direction, single steps
        .type ncs_switch_in, @function
ncs_switch_in:
        push    %rbx
        push    %rbp
        push    %r12
        push    %r13
        push    %r14
        push    %r15
        mov     %rsp, 40(%rdi)
        mov     %rdi, %r8
        mov     52(%r8), %eax
        mov     %eax, %ds
        mov     %eax, %es
        cmpl    $0, 60(%r8)
        jne     1f
        pushfq
        pop     %rcx
        and     $UNFIT, %ecx
        cmp     $0, %ecx
        jne     3f
2:      mov     8(%r8), %edx
        mov     12(%r8), %ebx
        mov     20(%r8), %ebp
        mov     24(%r8), %esi
        mov     28(%r8), %edi
        mov     %eax, %ss
        mov     16(%r8), %esp
        mov     0(%r8), %eax
        mov     4(%r8), %ecx
        ljmp    *32(%r8)
3:      pushq   $0x202                  # the flags: interrupts
        popfq
        jmp     2b
1:      push    %rax                    # SS
        mov     16(%r8), %eax
        push    %rax                    # ESP
        mov     56(%r8), %eax
        push    %rax                    # the flags
        mov     36(%r8), %eax
        push    %rax                    # CS
        mov     32(%r8), %eax
        push    %rax                    # EIP
        mov     0(%r8), %eax
        mov     4(%r8), %ecx
        mov     8(%r8), %edx
        mov     12(%r8), %ebx
        mov     20(%r8), %ebp
        mov     24(%r8), %esi
        mov     28(%r8), %edi
        iretq                           # serializes
# From a trampoline, by way of the landing page, which loads R8 with the Thread. ECX is the trampoline's number. Every other register is the
# untrusted code's, and so are SS, DS and ES.
ncs_switch_landing:
        mov     %eax, 0(%r8)
        mov     %edx, 8(%r8)
        mov     %ebx, 12(%r8)
        mov     %esp, 16(%r8)
        mov     %ebp, 20(%r8)
        mov     %esi, 24(%r8)
        mov     %edi, 28(%r8)
        mov     %ecx, 48(%r8)
# From there, or from a handler's frame, with the Thread in R8. DS and ES may keep the box's selector, which 64-bit code doesn't use. Each
# way in loads its own, and the system loads 0 where the segment is gone.
ncs_switch_out:
        cld
        mov     $0x2B, %eax
        mov     %eax, %ss
        mov     40(%r8), %rsp
        pop     %r15
        pop     %r14
        pop     %r13
        pop     %r12
        pop     %rbp
        pop     %rbx
        ret
# The handler of each signal of the library. A thread that calls boxes has lost its alternate stack if this one lies below 4 GiB. Untrusted
# code may then change the frame, so the process ends at once, and nothing on the stack is used any more.
        .type ncs_handler, @function
ncs_handler:
        mov     %rsp, %rax
        shr     $32, %rax
        jnz     ncs_handle
        mov     ncs_thread@gottpoff(%rip), %rax
        cmpq    $0, %fs:(%rax)
        je      ncs_handle
        mov     $1, %eax                # write
        mov     $2, %edi
        lea     lost(%rip), %rsi
        mov     $(lost_end - lost), %edx
        syscall
        mov     $231, %eax              # exit_group, as after abort
        mov     $134, %edi
        syscall
        hlt
        .section .rodata
lost:   .ascii  "nc_sandbox: a thread has lost its alternate stack\n"
lost_end:
        .section .note.GNU-stack, "", @progbits
