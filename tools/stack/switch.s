# stack_switch(top, function): runs the function on the stack that ends at top, a multiple of 16.
    .text
    .globl stack_switch
stack_switch:
    push %rbx
    mov %rsp, %rbx
    mov %rdi, %rsp
    call *%rsi
    mov %rbx, %rsp
    pop %rbx
    ret
# Where the return address of the last call was put: what the stubs note.
    .bss
    .globl stack_entered
    .balign 8
stack_entered:
    .skip 8
    .section .note.GNU-stack, "", @progbits
    .text
