# 4,097 bytes for the console, which has room for 4,096: the last call answers with -1
.segment 0x80000000
.entry main
main: li t0, 4097
loop: andi a0, t0, 63
 addi a0, a0, 33
 li a7, 1
 ecall
 addi t0, t0, -1
 bnez t0, loop
 li a7, 93
 ecall
