# Coherence of reads (CoRR): hart 0 writes 1 and then 2, hart 1 reads three times. Hart 1 exits with its reads as digits.
# A hart begins with its number in a0. Each variable has an item of its own.
    .option norelax
    .text
    .globl _start
_start:
    li t0, 60           # waits a while, so that in some schedules one hart is first, in some another
wait:
    addi t0, t0, -1
    bnez t0, wait
    li t0, 0
    beq a0, t0, hart0
    li t0, 1
    beq a0, t0, hart1
    li a0, 0
    j leave

hart0:
    la t2, x
    li t1, 1
    sw t1, 0(t2)
    li t1, 2
    sw t1, 0(t2)
    li a0, 0
    j leave

hart1:
    la t2, x
    lw t3, 0(t2)
    lw t4, 0(t2)
    lw t5, 0(t2)
    slli t6, t3, 3      # 10 * t3
    slli t3, t3, 1
    add t3, t3, t6
    add t3, t3, t4
    slli t6, t3, 3      # 10 * t3
    slli t3, t3, 1
    add t3, t3, t6
    add a0, t3, t5
    j leave

# Ends the hart with the value in a0: service 93, asked for in a7.
leave:
    li a7, 93
    ecall

    .data
    .balign 16
x:
    .word 0
