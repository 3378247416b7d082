# A library of one function, which calls one that calls itself: `again` has no relocation for it. It takes 24 bytes of the
# stack each time, 8 of them its return address; with OTHER it calls itself through a second function, which takes 8. With PAGES the
# first function takes 40,960 bytes by a loop, a page at a time, and 16 more.
    .section .text.yaslaurel_version, "ax", @progbits
    .globl yaslaurel_version
    .type yaslaurel_version, @function
yaslaurel_version:
    .ifdef PAGES
    mov %rsp, %r11
    sub $0xa000, %r11
2:
    sub $0x1000, %rsp
    movq $0, (%rsp)
    cmp %r11, %rsp
    jne 2b
    sub $0x10, %rsp
    add $0xa010, %rsp
    .endif
    call again
    ret
    .size yaslaurel_version, . - yaslaurel_version

    .section .text.again, "ax", @progbits
    .type again, @function
again:
    push %rbx
    push %rbp
    test %edi, %edi
    je 1f
    .ifdef OTHER
    call other
    .else
    call again
    .endif
1:
    pop %rbp
    pop %rbx
    ret
    .size again, . - again

    .section .text.other, "ax", @progbits
    .type other, @function
other:
    call again
    ret
    .size other, . - other
    .section .note.GNU-stack, "", @progbits
