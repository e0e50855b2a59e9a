# Each hart loads a word that the other side of the tree holds: of its own number there are three, so that no two harts load the same
# item. A hart begins with its number in a0.
    .option norelax
    .text
    .globl _start
_start:
    lui t0, 0x20            # the words begin at 0x20000
    slli t1, a0, 6
    slli t2, a0, 5
    add t1, t1, t2
    add t0, t0, t1          # 96 bytes, six items, for each hart
    slti t2, a0, 3
    bnez t2, load
    addi t0, t0, -240       # harts 3 to 5 load items of leaf 0, the others items of leaf 3
load:
    lw s0, 0(t0)

    .bss
words:
    .space 256
