# The greatest common divisor of 252 and 105 by subtraction. At the end a0, which is x10, is 21 (00000015).
# A test runs this text too: crates/rv_program_tests/src/examples.rt.
        li a0, 252
        li a1, 105
again:  beq a0, a1, done
        bltu a0, a1, less
        sub a0, a0, a1
        j again
less:   sub a1, a1, a0
        j again
done:   ebreak
