        lw   t0, 1(a0)          # the greatest so far
        slli t1, a1, 2
        add  t1, a0, t1         # the end
next:   addi a0, a0, 4
        beq  a0, t1, done
        lw   t2, 0(a0)
        ble  t2, t0, next
        mv   t0, t2
        j    next
done:   mv   a0, t0
        li   t3, 0x80008000
        sw   a0, 0(t3)
        ebreak
