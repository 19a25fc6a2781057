# Start-up of the examples: a stack, then main, then a stop.
    .section .text.start, "ax"
    .globl _start
_start:
    lui   sp, %hi(stack_top)
    addi  sp, sp, %lo(stack_top)
    call  main
    ebreak

# Where a trap would lead: it waits forever. No path from the entry comes here.
on_trap:
    nop
    j     on_trap
