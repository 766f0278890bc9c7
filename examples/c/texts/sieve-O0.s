# sieve-O0.elf: 240 bytes of text, 0 of data, 4000 of zeros
_start: auipc sp, 0x10                  #: _start start.S:5
        mv sp, sp                       #: _start start.S:5
        jal main                        #: _start start.S:6
        ebreak                          #: _start start.S:7
main:   addi sp, sp, -32                #: main sieve.c:9
        sw s0, 28(sp)                   #: main sieve.c:9
        addi s0, sp, 32                 #: main sieve.c:9
        sw zero, -20(s0)                #: main sieve.c:10
        sw zero, -24(s0)                #: main sieve.c:10
        li a5, 2                        #: main sieve.c:11
        sw a5, -28(s0)                  #: main sieve.c:11
        j main$6                        #: main sieve.c:11
main$1: lui a5, 0x80000                 #: main sieve.c:12
        addi a4, a5, 240                #: main sieve.c:12
        lw a5, -28(s0)                  #: main sieve.c:12
        add a5, a4, a5                  #: main sieve.c:12
        lbu a5, 0(a5)                   #: main sieve.c:12
        bnez a5, main$4                 #: main sieve.c:12
        lw a5, -20(s0)                  #: main sieve.c:14
        addi a5, a5, 1                  #: main sieve.c:14
        sw a5, -20(s0)                  #: main sieve.c:14
        lw a5, -28(s0)                  #: main sieve.c:15
        lw a4, -24(s0)                  #: main sieve.c:15
        add a5, a4, a5                  #: main sieve.c:15
        sw a5, -24(s0)                  #: main sieve.c:15
        lw a5, -28(s0)                  #: main sieve.c:16
        mul a5, a5, a5                  #: main sieve.c:16
        sw a5, -32(s0)                  #: main sieve.c:16
        j main$3                        #: main sieve.c:16
main$2: lui a5, 0x80000                 #: main sieve.c:17
        addi a4, a5, 240                #: main sieve.c:17
        lw a5, -32(s0)                  #: main sieve.c:17
        add a5, a4, a5                  #: main sieve.c:17
        li a4, 1                        #: main sieve.c:17
        sb a4, 0(a5)                    #: main sieve.c:17
        lw a4, -32(s0)                  #: main sieve.c:16
        lw a5, -28(s0)                  #: main sieve.c:16
        add a5, a4, a5                  #: main sieve.c:16
        sw a5, -32(s0)                  #: main sieve.c:16
main$3: lw a4, -32(s0)                  #: main sieve.c:16
        lui a5, 0x1                     #: main sieve.c:16
        addi a5, a5, -97                #: main sieve.c:16
        bge a5, a4, main$2              #: main sieve.c:16
        j main$5                        #: main sieve.c:16
main$4: nop                             #: main sieve.c:13
main$5: lw a5, -28(s0)                  #: main sieve.c:11
        addi a5, a5, 1                  #: main sieve.c:11
        sw a5, -28(s0)                  #: main sieve.c:11
main$6: lw a4, -28(s0)                  #: main sieve.c:11
        lui a5, 0x1                     #: main sieve.c:11
        addi a5, a5, -97                #: main sieve.c:11
        bge a5, a4, main$1              #: main sieve.c:11
        lw a5, -20(s0)                  #: main sieve.c:19
        slli a4, a5, 0x18               #: main sieve.c:19
        lw a5, -24(s0)                  #: main sieve.c:19
        xor a5, a4, a5                  #: main sieve.c:19
        mv a0, a5                       #: main sieve.c:20
        lw s0, 28(sp)                   #: main sieve.c:20
        addi sp, sp, 32                 #: main sieve.c:20
        ret                             #: main sieve.c:20
        .data
is_composite:
        .zero 4000
