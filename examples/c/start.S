# The first instructions: the stack begins at the end of RAM, main runs, and its answer is in a0 at the breakpoint.
# .bss is zero already: the text has it as .zero.
        .section .text.start, "ax"
        .globl _start
_start: la   sp, ram_end
        jal  main
        ebreak
