# Segments that end at the last address there is, and a jump from the last word.
.segment 0xFFFFFFE0
        .byte   1, 2, 3, 4
.segment 0xFFFFFFEE
        .byte   1, 2
.entry main
main:   la      x31, last
        jalr    x0, 0(x31)
last:   jal     x0, main
