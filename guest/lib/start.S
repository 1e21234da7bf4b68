/* The first instructions of a guest, and of a thread that clone makes. */

    .section .text.start, "ax"
    .globl _start
_start:
    .option push
    .option norelax
    lla gp, __global_pointer$
    .option pop
    mv a0, sp
    call guest_begin

/*
 * long guest_clone(long flags, void *stack, int *parent_tid, void *tls, int *child_tid, struct guest_thread *thread)
 * The new thread has no frame to return to, so it finds what to do on its own stack.
 */
    .section .text.guest_clone, "ax"
    .globl guest_clone
guest_clone:
    addi a1, a1, -16
    sd a5, 0(a1)
    li a7, 220
    ecall
    beqz a0, 1f
    ret
1:
    ld a0, 0(sp)
    call guest_thread_body
