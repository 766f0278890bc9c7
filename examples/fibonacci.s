# The tenth Fibonacci number, where the first two are 1. At the end a0, which is x10, is 55 (00000037).
# A test runs this text too: crates/rv_program_tests/src/examples.rt.
        li a0, 0                # one number, the zeroth
        li a1, 1                # the number after it
        li t0, 10               # how many steps are left
next:   add t1, a0, a1
        mv a0, a1
        mv a1, t1
        addi t0, t0, -1
        bnez t0, next
        ebreak
