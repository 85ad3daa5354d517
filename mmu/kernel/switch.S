# switch_stacks(a0: where to keep the stack pointer, a1: the other side's): a call that returns when the other side calls it.
    .text
    .globl switch_stacks
switch_stacks:
    addi sp, sp, -208
    sd ra, 0(sp)
    .irp n, 0, 1, 2, 3, 4, 5, 6, 7, 8, 9, 10, 11
    sd s\n, (8 + 8 * \n)(sp)
    fsd fs\n, (104 + 8 * \n)(sp)
    .endr
    sd sp, 0(a0)
    mv sp, a1
    ld ra, 0(sp)
    .irp n, 0, 1, 2, 3, 4, 5, 6, 7, 8, 9, 10, 11
    ld s\n, (8 + 8 * \n)(sp)
    fld fs\n, (104 + 8 * \n)(sp)
    .endr
    addi sp, sp, 208
    ret
