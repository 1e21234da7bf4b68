# The measured loops. Code at 0x1000, data from 0x2000 up to 0x22000. Each ends at an ecall with its result in a0.

sieve:
# Strikes the multiples of 2 to 247 among 61,440 numbers, and counts what is left; 24 times.
 lui s0, 2
 lui s1, 15
 addi s2, zero, 24
sieve_lap:
 add t0, s0, zero
 add t1, s0, s1
 addi t2, zero, 257
 slli t3, t2, 16
 or t2, t2, t3
 slli t3, t2, 32
 or t2, t2, t3
sieve_fill:
 sd t2, 0(t0)
 addi t0, t0, 8
 bltu t0, t1, sieve_fill
 addi t3, zero, 2
 addi t6, zero, 248
sieve_outer:
 add t4, s0, t3
 lbu t5, 0(t4)
 beq t5, zero, sieve_next
 add t4, t4, t3
sieve_strike:
 sb zero, 0(t4)
 add t4, t4, t3
 bltu t4, t1, sieve_strike
sieve_next:
 addi t3, t3, 1
 bltu t3, t6, sieve_outer
 add t0, s0, zero
 addi a0, zero, 0
sieve_count:
 lbu t5, 0(t0)
 add a0, a0, t5
 addi t0, t0, 1
 bltu t0, t1, sieve_count
 addi s2, s2, -1
 bne s2, zero, sieve_lap
 ecall

checksum:
# A checksum over 24 pages that writes each sum back; 160 times.
 lui s0, 2
 lui s1, 24
 addi s3, zero, 160
 addi a0, zero, 1
checksum_lap:
 add t0, s0, zero
 add t1, s0, s1
checksum_word:
 ld t2, 0(t0)
 add a0, a0, t2
 slli t3, a0, 13
 srli t4, a0, 51
 or a0, t3, t4
 xori a0, a0, 0x5a5
 sd a0, 0(t0)
 addi t0, t0, 8
 bltu t0, t1, checksum_word
 addi s3, s3, -1
 bne s3, zero, checksum_lap
 ecall

nested:
# Rows and columns of a table of 32-bit words, with a call after each row; 700 times.
 lui s0, 2
 lui s1, 3
 addi s2, zero, 700
nested_lap:
 addi t0, zero, 0
nested_rows:
 slli t2, t0, 3
 add t2, t2, s0
 ld a0, 0(t2)
 addi t1, zero, 0
 add t4, s1, zero
nested_cols:
 lw t5, 0(t4)
 addw a1, t5, t1
 xor a0, a0, a1
 sltu a2, a0, t5
 sub a0, a0, a2
 sw a0, 4(t4)
 addi t4, t4, 8
 addi t1, t1, 1
 slti a3, t1, 64
 bne a3, zero, nested_cols
 sd a0, 0(t2)
 jal ra, nested_leaf
 addi t0, t0, 1
 slti a3, t0, 64
 bne a3, zero, nested_rows
 addi s2, s2, -1
 bne s2, zero, nested_lap
 ecall
nested_leaf:
 srai a4, a0, 7
 and a0, a0, a4
 addi a0, a0, 77
 jalr zero, 0(ra)

calls:
# 999,424 calls of a function that keeps its values on the stack.
 lui sp, 34
 lui s0, 244
 addi a0, zero, 0
 addi s1, zero, 0
calls_lap:
 add a1, s1, zero
 jal ra, calls_leaf
 addi s1, s1, 1
 bne s1, s0, calls_lap
 ecall
calls_leaf:
 addi sp, sp, -32
 sd ra, 24(sp)
 sd a0, 16(sp)
 sw a1, 12(sp)
 ld t0, 16(sp)
 lw t1, 12(sp)
 add t0, t0, t1
 sd t0, 0(sp)
 ld a0, 0(sp)
 ld ra, 24(sp)
 addi sp, sp, 32
 jalr zero, 0(ra)

products:
# Products, quotients and remainders of the numbers of 24 pages, each written back; 100 times.
 lui s0, 2
 lui s1, 24
 addi s2, zero, 100
 lui s3, 361207
 addi s3, s3, 1069
 slli s3, s3, 13
 addi s3, s3, 1021
 lui s4, 244
 addi s4, s4, 579
 addi a0, zero, 7
products_lap:
 add t0, s0, zero
 add t1, s0, s1
products_word:
 ld t2, 0(t0)
 mul t3, a0, s3
 mulhu t4, t2, s3
 add t3, t3, t4
 divu t5, t3, s4
 remw t6, t2, s4
 add a0, t3, t5
 xor a0, a0, t6
 sd a0, 0(t0)
 addi t0, t0, 8
 bltu t0, t1, products_word
 addi s2, s2, -1
 bne s2, zero, products_lap
 ecall

counters:
# Adds to one of 2,048 counters in turn, and to one that all have; 999,424 times.
 lui s0, 2
 lui s1, 244
 lui s2, 6
 addi s3, zero, 3
 addi t0, zero, 0
 addi a0, zero, 0
counters_lap:
 slli t1, t0, 2
 add t0, t0, t1
 addi t0, t0, 1
 andi t0, t0, 2047
 slli t2, t0, 3
 add t2, t2, s0
 amoadd.d t3, s3, (t2)
 amoadd.w zero, t0, (s2)
 add a0, a0, t3
 addi s1, s1, -1
 bne s1, zero, counters_lap
 lw t3, 0(s2)
 slli t3, t3, 32
 xor a0, a0, t3
 ecall
