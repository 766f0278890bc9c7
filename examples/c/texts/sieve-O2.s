# sieve-O2.elf: 144 bytes of text, 0 of data, 4000 of zeros
_start: auipc sp, 0x10                  #: _start start.S:5
        mv sp, sp                       #: _start start.S:5
        jal main                        #: _start start.S:6
        ebreak                          #: _start start.S:7
main:   lui a7, 0x1                     #: main sieve.c:16
        lui a6, 0x80000                 #: main sieve.c:16
        lui t3, 0x80000                 #: main sieve.c:16
        addi a2, a7, -97                #: main sieve.c:16
        addi a6, a6, 146                #: main sieve.c:16
        li a4, 2                        #: main sieve.c:11
        li a0, 0                        #: main sieve.c:10
        li t1, 0                        #: main sieve.c:10
        addi t3, t3, 144                #: main sieve.c:10
        li a1, 1                        #: main sieve.c:17
        addi a7, a7, -96                #: main sieve.c:11
        j main$2                        #: main sieve.c:11
main$1: addi a4, a4, 1                  #: main sieve.c:11
        addi a6, a6, 1                  #: main sieve.c:11
        beq a4, a7, main$4              #: main sieve.c:11
main$2: lbu a5, 0(a6)                   #: main sieve.c:12
        bnez a5, main$1                 #: main sieve.c:12
        mul a5, a4, a4                  #: main sieve.c:16
        addi t1, t1, 1                  #: main sieve.c:14
        add a0, a0, a4                  #: main sieve.c:15
        blt a2, a5, main$1              #: main sieve.c:16
        add a3, a5, t3                  #: main sieve.c:16
main$3: sb a1, 0(a3)                    #: main sieve.c:17
        add a5, a5, a4                  #: main sieve.c:16
        add a3, a3, a4                  #: main sieve.c:16
        bge a2, a5, main$3              #: main sieve.c:16
        addi a4, a4, 1                  #: main sieve.c:11
        addi a6, a6, 1                  #: main sieve.c:11
        bne a4, a7, main$2              #: main sieve.c:11
main$4: slli t1, t1, 0x18               #: main sieve.c:19
        xor a0, t1, a0                  #: main sieve.c:20
        ret                             #: main sieve.c:20
        .data
is_composite:
        .zero 4000
