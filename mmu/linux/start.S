# A program of Linux begins here: on the stack lie the number of its words, and where they are.
    .text
    .globl _start
_start:
    mv a0, sp
    call linux_main
