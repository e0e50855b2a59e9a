# Message passing: hart 0 writes the data and then the flag, hart 1 reads the flag and then the data. Hart 1 exits with 2 * flag + data.
# A hart begins with its number in a0. Each variable has an item of its own.
    .option norelax
    .text
    .globl _start
_start:
    li t0, 60           # waits a while, so that in some schedules one hart is first, in some another
wait:
    addi t0, t0, -1
    bnez t0, wait
    li t0, 0
    beq a0, t0, hart0
    li t0, 1
    beq a0, t0, hart1
    li a0, 0
    j leave

hart0:
    li t1, 1
    la t2, data
    la t3, flag
    sw t1, 0(t2)
    sw t1, 0(t3)
    li a0, 0
    j leave

hart1:
    la t2, data
    la t3, flag
    lw t4, 0(t2)        # a copy of the data comes here first
    lw t5, 0(t3)
    lw t6, 0(t2)
    slli t5, t5, 1
    add a0, t5, t6
    j leave

# Ends the hart with the value in a0: service 93, asked for in a7.
leave:
    li a7, 93
    ecall

    .data
    .balign 16
data:
    .word 0
    .balign 16
flag:
    .word 0
