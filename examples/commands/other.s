.segment 0x80000010
.entry main
main: sw sp, 0(sp)
li a7, 93
ecall
