# The program of the target `calls`, as nc-cc has made it.
        .section .rodata
        .globl guest_elf, guest_elf_end
guest_elf:
        .incbin GUEST
guest_elf_end:
        .section .note.GNU-stack, "", @progbits
