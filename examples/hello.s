addi a0,x0,1
auipc a1,0
addi a1,a1,32
addi a2,x0,5
addi a7,x0,64
ecall
addi a0,x0,0
addi a7,x0,94
ecall
.word 0x6c6c6568
.word 111
