# Two writes each (2+2W): each hart writes both variables, in opposite orders. When both are through, each reads both variables
# and exits with them as two digits, x first.
# A hart begins with its number in a0. Each variable has an item of its own.
    .option norelax
    .text
    .globl _start
_start:
    la t2, x
    la t3, y
    la t4, through
    li t0, 1
    li t1, 2
    beqz a0, hart0
    beq a0, t0, hart1
    li a0, 0
    j leave

hart0:
    sw t0, 0(t2)
    sw t1, 0(t3)
    j wait

hart1:
    sw t0, 0(t3)
    sw t1, 0(t2)

# Counts this hart as through, and waits until both are.
wait:
    amoadd.w zero, t0, (t4)
again:
    lw t5, 0(t4)
    bne t5, t1, again
    lw t2, 0(t2)
    lw t3, 0(t3)
    slli t0, t2, 3
    slli t1, t2, 1
    add t0, t0, t1
    add a0, t0, t3

# Ends the hart with the value in a0: service 93, asked for in a7.
leave:
    li a7, 93
    ecall

    .data
    .balign 16
x:
    .word 0
    .balign 16
y:
    .word 0
    .balign 16
through:
    .word 0
