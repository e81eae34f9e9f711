# The parity of a word for each epoch, in assembly: epoch e folds word e and stores a byte.
# No epoch needs another, and yet the bytes lie in one line.
# Made by tools/image-of parities.s, with gcc.
#
# Report:
#> end done 8
#> at 00000070 00010001010000010000000000000000
#
# image: --epochs 8 --limit 40
    .globl body
    .type body, @function
body:
    la   t0, words
    slli t1, a0, 2
    add  t0, t0, t1
    lw   t2, 0(t0)
    srli t3, t2, 16
    xor  t2, t2, t3
    srli t3, t2, 8
    xor  t2, t2, t3
    srli t3, t2, 4
    xor  t2, t2, t3
    srli t3, t2, 2
    xor  t2, t2, t3
    srli t3, t2, 1
    xor  t2, t2, t3
    andi t2, t2, 1
    la   t0, parities
    add  t0, t0, a0
    sb   t2, 0(t0)
    ret
    .size body, .-body

    .section .rodata
    .align 4
    .type words, @object
    .size words, 32
words:
    .word 0, 1, 3, 7, 0x80000000, 0x80000001, 0xffffffff, 0x01010100

    .bss
    .align 4
    .type parities, @object
    .size parities, 8
parities:
    .zero 8
