# The way to main: both stacks, .data and .bss, and where the dispatcher and the table of handlers stand. The value
# that main returns halts the board.

.option norelax

.section .reset, "ax"
.globl reset
reset:
    j start

.text
start:
    la sp, stack_end
    la t0, interrupt_stack_end
    csrw mscratch, t0
    li t0, 0x40                 # the dispatcher
    csrw mtvec, t0
    la t0, vectors
    csrw 0x307, t0              # mtvt

    la t0, data_in_rom
    la t1, data_start
    la t2, data_end
    j 2f
1:  lw t3, 0(t0)
    sw t3, 0(t1)
    addi t0, t0, 4
    addi t1, t1, 4
2:  bltu t1, t2, 1b

    la t1, bss_start
    la t2, bss_end
    j 4f
3:  sw zero, 0(t1)
    addi t1, t1, 4
4:  bltu t1, t2, 3b

    call main
    li t0, 0x10003000           # the halter
    sw a0, 0(t0)

# The table: a word for each input, which is 0 where the input has no handler.
.section .vectors, "a"
.altmacro
.macro vector input
    .weak handler_\input
    .word handler_\input
.endm
.set input, 0
.rept 64
    vector %input
    .set input, input + 1
.endr
