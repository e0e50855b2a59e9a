# Independent reads of independent writes (IRIW): harts 0 and 1 write a variable each, harts 2 and 3 read both, in opposite order.
# A reader exits with 2 * what it read first + what it read then.
# A hart begins with its number in a0. Each variable has an item of its own.
    .option norelax
    .text
    .globl _start
_start:
    li t0, 60           # waits a while, so that in some schedules one hart is first, in some another
wait:
    addi t0, t0, -1
    bnez t0, wait
    li t0, 0
    beq a0, t0, hart0
    li t0, 1
    beq a0, t0, hart1
    li t0, 2
    beq a0, t0, hart2
    li t0, 3
    beq a0, t0, hart3
    li a0, 0
    j leave

hart0:
    li t1, 1
    la t2, x
    sw t1, 0(t2)
    li a0, 0
    j leave

hart1:
    li t1, 1
    la t3, y
    sw t1, 0(t3)
    li a0, 0
    j leave

hart2:
    la t2, x
    la t3, y
    lw t4, 0(t2)
    lw t5, 0(t3)
    slli t4, t4, 1
    add a0, t4, t5
    j leave

hart3:
    la t2, x
    la t3, y
    lw t4, 0(t3)
    lw t5, 0(t2)
    slli t4, t4, 1
    add a0, t4, t5
    j leave

# Ends the hart with the value in a0: service 93, asked for in a7.
leave:
    li a7, 93
    ecall

    .data
    .balign 16
x:
    .word 0
    .balign 16
y:
    .word 0
