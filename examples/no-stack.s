# What becomes of a call that keeps ra on a stack, where sp was never set: a crash. `./rv_sim explain < examples/no-stack.s` says why.
        call twice
        ebreak

twice:  addi sp, sp, -4         # sp is 0 at reset
        sw ra, 0(sp)            # a store outside RAM: a trap, to a handler that is not there either
        slli a0, a0, 1
        lw ra, 0(sp)
        addi sp, sp, 4
        ret
