addi sp,sp,-32
addi a0,sp,0
addi a1,x0,0
addi a7,x0,59
ecall
lw s0,0(sp)
lw s1,4(sp)
addi a0,s1,0
auipc a1,0
addi a1,a1,92
addi a2,x0,15
addi a7,x0,64
ecall
addi a0,s0,0
addi a1,sp,8
addi a2,x0,16
addi a7,x0,63
ecall
addi a2,a0,0
addi a0,x0,1
addi a1,sp,8
addi a7,x0,64
ecall
addi a2,a2,-15
bne a2,x0,wrong
addi a0,x0,0
addi a7,x0,94
ecall
wrong:
addi a0,x0,1
addi a7,x0,94
ecall
.word 0x6f726874
.word 0x20686775
.word 0x69702061
.word 0x000a6570
