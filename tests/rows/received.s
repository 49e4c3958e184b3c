# A serial handler that sends each byte back and counts it, and one of the ticker that counts too. The foreground turns
# interrupts on and off until 200 bytes have come.
.entry start
.org 0x140
.word rx
.org 0x148
.word tk
.org 0x200
start: lui sp, 0x20010
li t0, 64
csrw mtvec, t0
li t0, 256
csrw mtvt, t0
lui t1, 0x2000
li t0, 2
sb t0, 0(t1)
lui t1, 0x2001
lui t0, 0xC0000
addi t0, t0, 256
sw t0, 64(t1)
lui t0, 0x40000
addi t0, t0, 256
sw t0, 72(t1)
lui s0, 0x10000
li t0, 1
sw t0, 8(s0)
lui s1, 0x10002
li t0, 10
sw t0, 4(s1)
li t0, 1
sw t0, 8(s1)
lui s2, 0x20000
li s3, 200
loop: csrsi mstatus, 8
csrci mstatus, 8
lw t0, 0(s2)
bne t0, s3, loop
lui t0, 0x10003
sw zero, 0(t0)
rx: lui a0, 0x10000
lw a1, 0(a0)
sw a1, 0(a0)
lui a0, 0x20000
lw a1, 0(a0)
addi a1, a1, 1
sw a1, 0(a0)
ret
tk: lui a0, 0x10002
sw zero, 12(a0)
lui a0, 0x20000
lw a1, 4(a0)
addi a1, a1, 1
sw a1, 4(a0)
nop
ret
