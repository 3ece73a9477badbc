# stores single bytes, each 7 bytes lower in the attested blocks, and begins anew at their front
.segment 0x80000080
.entry main
main: li t2, 250
 lui t3, 0x80000
 addi t4, t3, 0x100
again: addi t0, t3, 0x2ff
loop: sb t2, 0(t0)
 addi t0, t0, -7
 addi t2, t2, -1
 beqz t2, over
 bgeu t0, t4, loop
 j again
over: li a7, 93
 lbu a0, 7(t0)
 ecall
