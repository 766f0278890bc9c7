# 5 factorial by recursion: each call keeps its return address and its number on the stack. At the end a0, which is x10, is
# 120 (00000078), and sp, which is x2, is 80010000 again, the end of the standard machine's RAM.
        li sp, 0x80010000       # registers are 0 at reset, sp too: without this line the first sw traps
        li a0, 5
        call factorial
        ebreak

factorial:                      # a0 := the factorial of a0
        li t0, 2
        bltu a0, t0, smallest
        addi sp, sp, -8
        sw ra, 4(sp)            # call overwrites ra
        sw a0, 0(sp)
        addi a0, a0, -1
        call factorial
        lw t1, 0(sp)            # the number that this call was given
        lw ra, 4(sp)
        addi sp, sp, 8
        mul a0, a0, t1
        ret
smallest:
        li a0, 1
        ret
