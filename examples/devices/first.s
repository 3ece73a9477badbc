.segment 0x80000000
.entry main
main: lui t0, 0x80002
 li t1, 1000
loop: lw t2, 0(t0)
 addi t2, t2, 1
 sw t2, 0(t0)
 addi t1, t1, -1
 bnez t1, loop
 li a7, 93
 mv a0, t2
 ecall
