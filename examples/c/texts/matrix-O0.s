# matrix-O0.elf: 676 bytes of text, 0 of data, 6912 of zeros
_start: auipc sp, 0x10                  #: _start start.S:5
        mv sp, sp                       #: _start start.S:5
        jal main                        #: _start start.S:6
        ebreak                          #: _start start.S:7
main:   addi sp, sp, -64                #: main matrix.c:9
        sw s0, 60(sp)                   #: main matrix.c:9
        addi s0, sp, 64                 #: main matrix.c:9
        sw zero, -20(s0)                #: main matrix.c:10
        j main$4                        #: main matrix.c:10
main$1: sw zero, -24(s0)                #: main matrix.c:11
        j main$3                        #: main matrix.c:11
main$2: lw a4, -20(s0)                  #: main matrix.c:12
        mv a5, a4                       #: main matrix.c:12
        slli a5, a5, 0x1                #: main matrix.c:12
        add a3, a5, a4                  #: main matrix.c:12
        lw a4, -24(s0)                  #: main matrix.c:12
        mv a5, a4                       #: main matrix.c:12
        slli a5, a5, 0x2                #: main matrix.c:12
        add a5, a5, a4                  #: main matrix.c:12
        neg a5, a5                      #: main matrix.c:12
        add a3, a3, a5                  #: main matrix.c:12
        lui a5, 0x80000                 #: main matrix.c:12
        addi a2, a5, 688                #: main matrix.c:12
        lw a4, -20(s0)                  #: main matrix.c:12
        mv a5, a4                       #: main matrix.c:12
        slli a5, a5, 0x1                #: main matrix.c:12
        add a5, a5, a4                  #: main matrix.c:12
        slli a5, a5, 0x3                #: main matrix.c:12
        lw a4, -24(s0)                  #: main matrix.c:12
        add a5, a5, a4                  #: main matrix.c:12
        slli a5, a5, 0x2                #: main matrix.c:12
        add a5, a2, a5                  #: main matrix.c:12
        sw a3, 0(a5)                    #: main matrix.c:12
        lw a4, -24(s0)                  #: main matrix.c:13
        mv a5, a4                       #: main matrix.c:13
        slli a5, a5, 0x3                #: main matrix.c:13
        sub a4, a5, a4                  #: main matrix.c:13
        lw a5, -20(s0)                  #: main matrix.c:13
        xor a3, a4, a5                  #: main matrix.c:13
        lui a5, 0x80001                 #: main matrix.c:13
        addi a2, a5, -1104              #: main matrix.c:13
        lw a4, -20(s0)                  #: main matrix.c:13
        mv a5, a4                       #: main matrix.c:13
        slli a5, a5, 0x1                #: main matrix.c:13
        add a5, a5, a4                  #: main matrix.c:13
        slli a5, a5, 0x3                #: main matrix.c:13
        lw a4, -24(s0)                  #: main matrix.c:13
        add a5, a5, a4                  #: main matrix.c:13
        slli a5, a5, 0x2                #: main matrix.c:13
        add a5, a2, a5                  #: main matrix.c:13
        sw a3, 0(a5)                    #: main matrix.c:13
        lw a5, -24(s0)                  #: main matrix.c:11
        addi a5, a5, 1                  #: main matrix.c:11
        sw a5, -24(s0)                  #: main matrix.c:11
main$3: lw a4, -24(s0)                  #: main matrix.c:11
        li a5, 23                       #: main matrix.c:11
        bge a5, a4, main$2              #: main matrix.c:11
        lw a5, -20(s0)                  #: main matrix.c:10
        addi a5, a5, 1                  #: main matrix.c:10
        sw a5, -20(s0)                  #: main matrix.c:10
main$4: lw a4, -20(s0)                  #: main matrix.c:10
        li a5, 23                       #: main matrix.c:10
        bge a5, a4, main$1              #: main matrix.c:10
        sw zero, -28(s0)                #: main matrix.c:15
        j main$10                       #: main matrix.c:15
main$5: sw zero, -32(s0)                #: main matrix.c:16
        j main$9                        #: main matrix.c:16
main$6: sw zero, -36(s0)                #: main matrix.c:17
        sw zero, -40(s0)                #: main matrix.c:18
        j main$8                        #: main matrix.c:18
main$7: lui a5, 0x80000                 #: main matrix.c:19
        addi a3, a5, 688                #: main matrix.c:19
        lw a4, -28(s0)                  #: main matrix.c:19
        mv a5, a4                       #: main matrix.c:19
        slli a5, a5, 0x1                #: main matrix.c:19
        add a5, a5, a4                  #: main matrix.c:19
        slli a5, a5, 0x3                #: main matrix.c:19
        lw a4, -40(s0)                  #: main matrix.c:19
        add a5, a5, a4                  #: main matrix.c:19
        slli a5, a5, 0x2                #: main matrix.c:19
        add a5, a3, a5                  #: main matrix.c:19
        lw a3, 0(a5)                    #: main matrix.c:19
        lui a5, 0x80001                 #: main matrix.c:19
        addi a2, a5, -1104              #: main matrix.c:19
        lw a4, -40(s0)                  #: main matrix.c:19
        mv a5, a4                       #: main matrix.c:19
        slli a5, a5, 0x1                #: main matrix.c:19
        add a5, a5, a4                  #: main matrix.c:19
        slli a5, a5, 0x3                #: main matrix.c:19
        lw a4, -32(s0)                  #: main matrix.c:19
        add a5, a5, a4                  #: main matrix.c:19
        slli a5, a5, 0x2                #: main matrix.c:19
        add a5, a2, a5                  #: main matrix.c:19
        lw a5, 0(a5)                    #: main matrix.c:19
        mul a5, a3, a5                  #: main matrix.c:19
        lw a4, -36(s0)                  #: main matrix.c:19
        add a5, a4, a5                  #: main matrix.c:19
        sw a5, -36(s0)                  #: main matrix.c:19
        lw a5, -40(s0)                  #: main matrix.c:18
        addi a5, a5, 1                  #: main matrix.c:18
        sw a5, -40(s0)                  #: main matrix.c:18
main$8: lw a4, -40(s0)                  #: main matrix.c:18
        li a5, 23                       #: main matrix.c:18
        bge a5, a4, main$7              #: main matrix.c:18
        lui a5, 0x80001                 #: main matrix.c:20
        addi a3, a5, 1200               #: main matrix.c:20
        lw a4, -28(s0)                  #: main matrix.c:20
        mv a5, a4                       #: main matrix.c:20
        slli a5, a5, 0x1                #: main matrix.c:20
        add a5, a5, a4                  #: main matrix.c:20
        slli a5, a5, 0x3                #: main matrix.c:20
        lw a4, -32(s0)                  #: main matrix.c:20
        add a5, a5, a4                  #: main matrix.c:20
        slli a5, a5, 0x2                #: main matrix.c:20
        add a5, a3, a5                  #: main matrix.c:20
        lw a4, -36(s0)                  #: main matrix.c:20
        sw a4, 0(a5)                    #: main matrix.c:20
        lw a5, -32(s0)                  #: main matrix.c:16
        addi a5, a5, 1                  #: main matrix.c:16
        sw a5, -32(s0)                  #: main matrix.c:16
main$9: lw a4, -32(s0)                  #: main matrix.c:16
        li a5, 23                       #: main matrix.c:16
        bge a5, a4, main$6              #: main matrix.c:16
        lw a5, -28(s0)                  #: main matrix.c:15
        addi a5, a5, 1                  #: main matrix.c:15
        sw a5, -28(s0)                  #: main matrix.c:15
main$10: lw a4, -28(s0)                 #: main matrix.c:15
        li a5, 23                       #: main matrix.c:15
        bge a5, a4, main$5              #: main matrix.c:15
        sw zero, -44(s0)                #: main matrix.c:22
        sw zero, -48(s0)                #: main matrix.c:23
        j main$14                       #: main matrix.c:23
main$11: sw zero, -52(s0)               #: main matrix.c:24
        j main$13                       #: main matrix.c:24
main$12: lw a4, -44(s0)                 #: main matrix.c:25
        mv a5, a4                       #: main matrix.c:25
        slli a5, a5, 0x5                #: main matrix.c:25
        sub a3, a5, a4                  #: main matrix.c:25
        lui a5, 0x80001                 #: main matrix.c:25
        addi a2, a5, 1200               #: main matrix.c:25
        lw a4, -48(s0)                  #: main matrix.c:25
        mv a5, a4                       #: main matrix.c:25
        slli a5, a5, 0x1                #: main matrix.c:25
        add a5, a5, a4                  #: main matrix.c:25
        slli a5, a5, 0x3                #: main matrix.c:25
        lw a4, -52(s0)                  #: main matrix.c:25
        add a5, a5, a4                  #: main matrix.c:25
        slli a5, a5, 0x2                #: main matrix.c:25
        add a5, a2, a5                  #: main matrix.c:25
        lw a5, 0(a5)                    #: main matrix.c:25
        add a5, a3, a5                  #: main matrix.c:25
        sw a5, -44(s0)                  #: main matrix.c:25
        lw a5, -52(s0)                  #: main matrix.c:24
        addi a5, a5, 1                  #: main matrix.c:24
        sw a5, -52(s0)                  #: main matrix.c:24
main$13: lw a4, -52(s0)                 #: main matrix.c:24
        li a5, 23                       #: main matrix.c:24
        bge a5, a4, main$12             #: main matrix.c:24
        lw a5, -48(s0)                  #: main matrix.c:23
        addi a5, a5, 1                  #: main matrix.c:23
        sw a5, -48(s0)                  #: main matrix.c:23
main$14: lw a4, -48(s0)                 #: main matrix.c:23
        li a5, 23                       #: main matrix.c:23
        bge a5, a4, main$11             #: main matrix.c:23
        lw a5, -44(s0)                  #: main matrix.c:26
        mv a0, a5                       #: main matrix.c:27
        lw s0, 60(sp)                   #: main matrix.c:27
        addi sp, sp, 64                 #: main matrix.c:27
        ret                             #: main matrix.c:27
        .data
left:
        .zero 2304
right:
        .zero 2304
product:
        .zero 2304
