# stores numbers that grow, each 20 bytes further on in the attested blocks, and begins anew at their end
.segment 0x80000000
.entry main
main: li t2, 300
 lui t3, 0x80000
 addi t4, t3, 0x300
again: addi t0, t3, 0x100
loop: sw t2, 0(t0)
 addi t0, t0, 20
 addi t2, t2, -1
 beqz t2, over
 bltu t0, t4, loop
 j again
over: li a7, 93
 lw a0, -20(t0)
 ecall
