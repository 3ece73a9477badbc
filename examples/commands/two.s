.segment 0x80000000
.entry main
main: li a0, 0x12345FFF
ecall
