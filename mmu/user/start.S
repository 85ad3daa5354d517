# A program begins here: `main` gets the number of the image's first file that is no program, and its result is the exit status.
    .section .text.entry
    .globl _start
_start:
    call main
    call exit
