# The greater of a0 and a1, in a0.
greater:
        bge  a0, a1, kept
        mv   a0, a1
kept:   ret

        .globl _start
_start: mv   s0, a0             # where the next word stands
        slli t1, a1, 2
        add  s1, a0, t1         # the end
        lw   s2, 0(s0)          # the greatest so far
next:   addi s0, s0, 4
        beq  s0, s1, done
        mv   a0, s2
        mv   s3, a1             # how many
        lw   a1, 0(s0)
        call greater
        mv   s2, a0
        mv   a1, s3
        j    next
done:   mv   a0, s2
        li   t3, 0x80008000
        sw   a0, 0(t3)
        ebreak
