addi a0,x0,7
addi a7,x0,93
ecall
