# Every statement of the assembler, with the ends and the middle of what each operand may be.
.segment 0x80000000
.entry main

main:
        lui     x0, 0
        lui     x31, 0xFFFFF
        lui     a0, 524288
        auipc   x1, 0
        auipc   t6, 0xfffff
        auipc   gp, 0x12345

# jumps: to labels on both sides and to itself, and by numbers
back:   jal     x0, forward
        jal     ra, back
here:   jal     x31, here
        jal     t0, 4
        jal     x1, -1048576
        jal     x1, 1048574
        jal     s0, 2
        jalr    x0, 0(x0)
        jalr    x31, -2048(x31)
        jalr    ra, 2047(t1)
        jalr    a0, 0x1a(fp)

# branches
        beq     x0, x31, forward
        bne     a0, a1, back
        blt     s0, fp, here
        bge     t3, t4, forward
        bltu    x16, x17, main
        bgeu    s10, s11, forward
        beq     x1, x2, 4094
        bne     x1, x2, -4096
        blt     x3, x4, 0
        bge     x5, x6, -2
        bltu    x7, x8, 2
        bgeu    x9, x10, 0x7fe

# loads and stores
        lb      x0, 0(x31)
        lb      a0, -2048(a1)
        lh      a2, 2047(a3)
        lw      zero, 0x7FF(sp)
        lw      s1, -1(gp)
        lbu     tp, 255(t0)
        lhu     x31, -256(x0)
        sb      x31, 0(x0)
        sb      a4, -2048(a5)
        sh      a6, 2047(a7)
        sw      s2, -1(s3)
        sw      s4, 1365(s5)

# arithmetic with a number
        addi    x0, x0, 0
        addi    x31, x1, -2048
        addi    x1, x31, 2047
        slti    s6, s7, -2048
        slti    s8, s9, 1
        sltiu   t1, t2, 2047
        sltiu   t1, t2, -1
        xori    t5, t6, -1
        xori    a0, a0, 0x555
        ori     a1, a2, -2048
        ori     a1, a2, 2047
        andi    a3, a4, -16
        andi    a3, a4, 0xff
        slli    x1, x2, 0
        slli    x31, x31, 31
        srli    x0, x1, 1
        srli    s0, s1, 0x1F
        srai    a0, a1, 31
        srai    a0, a1, 16

# register with register
        add     x0, x1, x31
        add     ra, sp, gp
        sub     tp, t0, t1
        sll     t2, s0, s1
        slt     a0, a1, a2
        sltu    a3, a4, a5
        xor     a6, a7, s2
        srl     s3, s4, s5
        sra     s6, s7, s8
        or      s9, s10, s11
        and     t3, t4, t5
        and     x31, x31, x31

# products, quotients and remainders
        mul     x0, x1, x31
        mulh    ra, sp, gp
        mulhsu  tp, t0, t1
        mulhu   t2, s0, s1
        div     a0, a1, a2
        divu    a3, a4, a5
        rem     a6, a7, s2
        remu    x31, x31, x31

        fence
        ecall
        ebreak
        nop
        ret

# statements that stand for others; each register by both of its names
forward:
        mv      x0, zero
        mv      x1, ra
        mv      x2, sp
        mv      x3, gp
        mv      x4, tp
        mv      x5, t0
        mv      x6, t1
        mv      x7, t2
        mv      x8, s0
        mv      x9, s1
        mv      x10, a0
        mv      x11, a1
        mv      x12, a2
        mv      x13, a3
        mv      x14, a4
        mv      x15, a5
        mv      x16, a6
        mv      x17, a7
        mv      x18, s2
        mv      x19, s3
        mv      x20, s4
        mv      x21, s5
        mv      x22, s6
        mv      x23, s7
        mv      x24, s8
        mv      x25, s9
        mv      x26, s10
        mv      x27, s11
        mv      x28, t3
        mv      x29, t4
        mv      x30, t5
        mv      x31, t6
        mv      x8, fp
        li      x1, 0
        li      x31, -2048
        li      a0, 2047
        li      a1, 2048
        li      a2, -2049
        li      a3, 4096
        li      a4, 0x12345FFF
        li      a5, 0x7ffff800
        li      a6, 2147483647
        li      a7, -2147483648
        li      s2, 0x80000000
        li      s3, 4294967295
        li      s4, 0xFFFFF7FF
        li      s5, 0xfffff800
        la      t0, main
        la      t1, last
        la      t2, data
        la      t3, data.odd
        la      t4, _top
        j       forward
        j       last
        j       -4
        jr      ra
        jr      x31
        beqz    a0, forward
        beqz    x31, last
        bnez    x0, back
        bnez    t6, 4094
        bnez    t6, -4096
last:   jal     x0, 0
        j       lw
        la      a0, a.label_of_64_bytes.which_is_as_long_as_one_may_be.with_a_digit7
lw:     lw      a0, 4(a0)                       # a label may be spelled as an instruction
        .word   0x00000013, 0x00100073          # words may be instructions

.segment 0x80001000
a.label_of_64_bytes.which_is_as_long_as_one_may_be.with_a_digit7:
data:   .word   0, 1, -1, 2147483647, -2147483648, 0xFFFFFFFF, 4294967295, 0x80000000
        .word   main, last, data , data.odd,_top
        .byte   0, -0
        .byte   -128, -1, 1, 127, 128, 0xFF, 255
        .space  0
        .space  5
        .byte   0xA5
data.odd:
        .word   0xDEADBEEF, 0x01020304          # at an address that 4 doesn't divide
        .space  0x21
        .byte   1, 2

# an address whose upper half is rounded up to 2^32
.segment 0xFFFFF800
_top:   addi    x1, x1, 1
	j	_top
        .word   _top
        .byte   0x11, 0x22, 0x33, 0x44
