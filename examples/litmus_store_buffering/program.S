# Store buffering: each hart writes its own variable and then reads the other. A hart exits with what it read.
# A hart begins with its number in a0. Each variable has an item of its own.
    .option norelax
    .text
    .globl _start
_start:
    li t0, 60           # waits a while, so that in some schedules one hart is first, in some another
wait:
    addi t0, t0, -1
    bnez t0, wait
    li t0, 0
    beq a0, t0, hart0
    li t0, 1
    beq a0, t0, hart1
    li a0, 0
    j leave

hart0:
    li t1, 1
    la t2, x
    la t3, y
    sw t1, 0(t2)
    lw a0, 0(t3)
    j leave

hart1:
    li t1, 1
    la t2, x
    la t3, y
    sw t1, 0(t3)
    lw a0, 0(t2)
    j leave

# Ends the hart with the value in a0: service 93, asked for in a7.
leave:
    li a7, 93
    ecall

    .data
    .balign 16
x:
    .word 0
    .balign 16
y:
    .word 0
