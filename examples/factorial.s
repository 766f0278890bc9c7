# 5 factorial, each product by repeated addition. At the end a0, which is x10, is 120 (00000078).
# A test runs this text too: crates/rv_program_tests/src/examples.rt.
        li a0, 1                # the product so far
        li t0, 5                # the next factor
factor: mv t1, t0               # how often a0 is still to be added
        li t2, 0                # the sum
again:  add t2, t2, a0
        addi t1, t1, -1
        bnez t1, again
        mv a0, t2
        addi t0, t0, -1
        bnez t0, factor
        ebreak
