.segment 0x80000000
.entry main
main: sw ra, 0(sp)
