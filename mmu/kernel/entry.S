# Entry, traps, and what C has no words for.
# Instructions and registers of the hypervisor extension stand by their numbers, so that any assembler for RISC-V takes them.

#define HSTATUS 0x600
#define SYSTEM 0x73

    .section .text.entry
    .globl _start
_start:                      # a0: the hart, a1: the device tree
    la sp, kernel_stack_end
    la t0, bss_start
    la t1, bss_end
1:  bgeu t0, t1, 2f
    sd zero, 0(t0)
    addi t0, t0, 8
    j 1b
2:  la t0, trap_entry
    csrw stvec, t0
    csrw sscratch, zero
    li t0, 0x2000            # sstatus.FS: the pager's libraries have some doubles
    csrs sstatus, t0
    call kernel_main
3:  wfi
    j 3b

    .text
# A trap. While a process runs, sscratch is where its registers are kept; in the kernel it is 0, and a trap is a mistake
# unless an access on behalf of a process (hardware_load, hardware_store) expects it.
    .balign 4
trap_entry:
    csrrw a0, sscratch, a0
    beqz a0, kernel_trap
    .irp n, 1, 2, 3, 4, 5, 6, 7, 8, 9, 11, 12, 13, 14, 15, 16, 17, 18, 19, 20, 21, 22, 23, 24, 25, 26, 27, 28, 29, 30, 31
    sd x\n, (8 * \n)(a0)
    .endr
    csrrw t0, sscratch, zero
    sd t0, 80(a0)            # a0 itself
    csrr t0, sepc
    sd t0, 0(a0)
    la sp, kernel_stack_end
    csrr a0, scause
    csrr a1, stval
    call trap                # returns the registers of the process that goes on

    .globl enter
enter:                       # enter(a0: registers)
    csrw sscratch, a0
    li t0, 0x80              # hstatus.SPV and not sstatus.SPP: back to the guest's user mode
    csrs HSTATUS, t0
    li t0, 0x100
    csrc sstatus, t0
    ld t0, 0(a0)
    csrw sepc, t0
    .irp n, 1, 2, 3, 4, 5, 6, 7, 8, 9, 11, 12, 13, 14, 15, 16, 17, 18, 19, 20, 21, 22, 23, 24, 25, 26, 27, 28, 29, 30, 31
    ld x\n, (8 * \n)(a0)
    .endr
    ld a0, 80(a0)
    sret

kernel_trap:
    la t0, expected
    ld t1, 0(t0)
    beqz t1, 1f
    sd zero, 0(t0)           # the access ends with the cause of its fault
    csrw sepc, t1
    csrw sscratch, zero
    li a0, 0
    csrr a1, scause
    sret
1:  csrr a0, scause
    csrr a1, sepc
    csrr a2, stval
    la sp, kernel_stack_end
    call kernel_trapped

# An access by the hardware, as the guest's user mode would make it: HLV.BU, HLV.HU, HLV.WU, HLV.D, HLVX.WU, HSV.B, HSV.H, HSV.W, HSV.D.
# Returns the number, and 0 or the cause of its fault.
    .macro access name, instruction:vararg
    .globl \name
\name:
    la t0, expected
    la t1, 1f
    sd t1, 0(t0)
    mv t2, a0
    .insn r SYSTEM, 4, \instruction
    sd zero, 0(t0)
    li a1, 0
1:  ret
    .endm
    access hardware_load, 0x30, a0, t2, x1
    access hardware_load_2, 0x32, a0, t2, x1
    access hardware_load_4, 0x34, a0, t2, x1
    access hardware_load_8, 0x36, a0, t2, x0
    access hardware_fetch, 0x34, a0, t2, x3
    access hardware_store, 0x31, x0, t2, a1
    access hardware_store_2, 0x33, x0, t2, a1
    access hardware_store_4, 0x35, x0, t2, a1
    access hardware_store_8, 0x37, x0, t2, a1

# Whether there is a hypervisor extension: its register hstatus is read. Returns as an access does.
    .globl hypervisor_trial
hypervisor_trial:
    la t0, expected
    la t1, 1f
    sd t1, 0(t0)
    csrr a0, HSTATUS
    sd zero, 0(t0)
    li a1, 0
1:  ret

# What the first stage's tables say now is what the next access walks, and what frames hold what the next fetch reads.
    .globl fence_first_stage
fence_first_stage:
    .insn r SYSTEM, 0, 0x11, x0, x0, x0  # HFENCE.VVMA
    fence.i
    ret

    .globl fence_second_stage
fence_second_stage:
    .insn r SYSTEM, 0, 0x31, x0, x0, x0  # HFENCE.GVMA
    ret

    .bss
    .balign 16
expected:                    # where an access that faults goes on, or 0
    .space 16
kernel_stack:
    .space 65536
kernel_stack_end:
