# The sum of 1 to 10. At the end x5 is 55 (00000037).
# A test runs this text too: crates/rv_program_tests/src/examples.rt.
        addi x6, x0, 10         # the next number to add
next:   add x5, x5, x6
        addi x6, x6, -1
        bne x6, x0, next
        ebreak
