# The largest of five signed words. At the end a1, which is x11, is 42 (0000002a).
# A test runs this text too: crates/rv_program_tests/src/examples.rt.
        la a0, numbers
        li t0, 4                # how many are left after the first
        lw a1, 0(a0)            # the largest so far
next:   addi a0, a0, 4
        lw t1, 0(a0)
        bge a1, t1, keep
        mv a1, t1
keep:   addi t0, t0, -1
        bnez t0, next
        ebreak

        .data
numbers:
        .word 3, -7, 42, 8, 19
