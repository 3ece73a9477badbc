.segment 0x80000000
.entry main
main: sw sp, 0(sp)
li a7, 93
ecall
