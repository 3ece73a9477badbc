# Segments in falling order, at odd addresses and of lengths that 4 doesn't divide: single bytes at both ends.
.segment 0x1001
first:  .byte   0xaa, 0xbb, 0xcc
        addi    x1, x0, 5
        .byte   0xff

.segment 0x402
        .byte   0xa0, 0xa1
second: lui     x2, 0x80000
        beq     x2, x0, second
        .byte   1, 2, 3
.entry second

.segment 0
        .word   first, second, third

.segment 0xFFFFFFE9
third:  .byte   7, 8, 9
        ecall
