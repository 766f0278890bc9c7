# interpreter-O0.elf: 844 bytes of text, 168 of data, 0 of zeros
_start: auipc sp, 0x10                  #: _start start.S:5
        mv sp, sp                       #: _start start.S:5
        jal main                        #: _start start.S:6
        ebreak                          #: _start start.S:7
main:   addi sp, sp, -112               #: main interpreter.c:22
        sw s0, 108(sp)                  #: main interpreter.c:22
        addi s0, sp, 112                #: main interpreter.c:22
        sw zero, -108(s0)               #: main interpreter.c:23
        sw zero, -104(s0)               #: main interpreter.c:23
        sw zero, -100(s0)               #: main interpreter.c:23
        sw zero, -96(s0)                #: main interpreter.c:23
        sw zero, -20(s0)                #: main interpreter.c:24
        sw zero, -24(s0)                #: main interpreter.c:25
        lui a5, 0x80000                 #: main interpreter.c:26
        addi a5, a5, 848                #: main interpreter.c:26
        sw a5, -28(s0)                  #: main interpreter.c:26
main$1: lw a5, -28(s0)                  #: main interpreter.c:27
        addi a4, a5, 2                  #: main interpreter.c:27
        sw a4, -28(s0)                  #: main interpreter.c:27
        lh a5, 0(a5)                    #: main interpreter.c:27
        li a4, 9                        #: main interpreter.c:27
        bltu a4, a5, main$4             #: main interpreter.c:27
        slli a4, a5, 0x2                #: main interpreter.c:27
        lui a5, 0x80000                 #: main interpreter.c:27
        addi a5, a5, 976                #: main interpreter.c:27
        add a5, a4, a5                  #: main interpreter.c:27
        lw a5, 0(a5)                    #: main interpreter.c:27
        jr a5                           #: main interpreter.c:27
        lw a5, -28(s0)                  #: main interpreter.c:28
        addi a4, a5, 2                  #: main interpreter.c:28
        sw a4, -28(s0)                  #: main interpreter.c:28
        lh a3, 0(a5)                    #: main interpreter.c:28
        lw a5, -20(s0)                  #: main interpreter.c:28
        addi a4, a5, 1                  #: main interpreter.c:28
        sw a4, -20(s0)                  #: main interpreter.c:28
        mv a4, a3                       #: main interpreter.c:28
        slli a5, a5, 0x2                #: main interpreter.c:28
        addi a5, a5, -16                #: main interpreter.c:28
        add a5, a5, s0                  #: main interpreter.c:28
        sw a4, -76(a5)                  #: main interpreter.c:28
        j main$4                        #: main interpreter.c:28
        lw a5, -28(s0)                  #: main interpreter.c:29
        addi a4, a5, 2                  #: main interpreter.c:29
        sw a4, -28(s0)                  #: main interpreter.c:29
        lh a5, 0(a5)                    #: main interpreter.c:29
        mv a3, a5                       #: main interpreter.c:29
        lw a4, -20(s0)                  #: main interpreter.c:29
        addi a5, a4, 1                  #: main interpreter.c:29
        sw a5, -20(s0)                  #: main interpreter.c:29
        slli a5, a3, 0x2                #: main interpreter.c:29
        addi a5, a5, -16                #: main interpreter.c:29
        add a5, a5, s0                  #: main interpreter.c:29
        lw a3, -92(a5)                  #: main interpreter.c:29
        slli a5, a4, 0x2                #: main interpreter.c:29
        addi a5, a5, -16                #: main interpreter.c:29
        add a5, a5, s0                  #: main interpreter.c:29
        sw a3, -76(a5)                  #: main interpreter.c:29
        j main$4                        #: main interpreter.c:29
        lw a5, -20(s0)                  #: main interpreter.c:30
        addi a5, a5, -1                 #: main interpreter.c:30
        sw a5, -20(s0)                  #: main interpreter.c:30
        lw a5, -28(s0)                  #: main interpreter.c:30
        addi a4, a5, 2                  #: main interpreter.c:30
        sw a4, -28(s0)                  #: main interpreter.c:30
        lh a5, 0(a5)                    #: main interpreter.c:30
        mv a3, a5                       #: main interpreter.c:30
        lw a5, -20(s0)                  #: main interpreter.c:30
        slli a5, a5, 0x2                #: main interpreter.c:30
        addi a5, a5, -16                #: main interpreter.c:30
        add a5, a5, s0                  #: main interpreter.c:30
        lw a4, -76(a5)                  #: main interpreter.c:30
        slli a5, a3, 0x2                #: main interpreter.c:30
        addi a5, a5, -16                #: main interpreter.c:30
        add a5, a5, s0                  #: main interpreter.c:30
        sw a4, -92(a5)                  #: main interpreter.c:30
        j main$4                        #: main interpreter.c:30
        lw a5, -20(s0)                  #: main interpreter.c:31
        addi a5, a5, -1                 #: main interpreter.c:31
        sw a5, -20(s0)                  #: main interpreter.c:31
        lw a5, -20(s0)                  #: main interpreter.c:31
        addi a5, a5, -1                 #: main interpreter.c:31
        slli a5, a5, 0x2                #: main interpreter.c:31
        addi a5, a5, -16                #: main interpreter.c:31
        add a5, a5, s0                  #: main interpreter.c:31
        lw a3, -76(a5)                  #: main interpreter.c:31
        lw a5, -20(s0)                  #: main interpreter.c:31
        slli a5, a5, 0x2                #: main interpreter.c:31
        addi a5, a5, -16                #: main interpreter.c:31
        add a5, a5, s0                  #: main interpreter.c:31
        lw a4, -76(a5)                  #: main interpreter.c:31
        lw a5, -20(s0)                  #: main interpreter.c:31
        addi a5, a5, -1                 #: main interpreter.c:31
        add a4, a3, a4                  #: main interpreter.c:31
        slli a5, a5, 0x2                #: main interpreter.c:31
        addi a5, a5, -16                #: main interpreter.c:31
        add a5, a5, s0                  #: main interpreter.c:31
        sw a4, -76(a5)                  #: main interpreter.c:31
        j main$4                        #: main interpreter.c:31
        lw a5, -20(s0)                  #: main interpreter.c:32
        addi a5, a5, -1                 #: main interpreter.c:32
        sw a5, -20(s0)                  #: main interpreter.c:32
        lw a5, -20(s0)                  #: main interpreter.c:32
        addi a5, a5, -1                 #: main interpreter.c:32
        slli a5, a5, 0x2                #: main interpreter.c:32
        addi a5, a5, -16                #: main interpreter.c:32
        add a5, a5, s0                  #: main interpreter.c:32
        lw a3, -76(a5)                  #: main interpreter.c:32
        lw a5, -20(s0)                  #: main interpreter.c:32
        slli a5, a5, 0x2                #: main interpreter.c:32
        addi a5, a5, -16                #: main interpreter.c:32
        add a5, a5, s0                  #: main interpreter.c:32
        lw a4, -76(a5)                  #: main interpreter.c:32
        lw a5, -20(s0)                  #: main interpreter.c:32
        addi a5, a5, -1                 #: main interpreter.c:32
        sub a4, a3, a4                  #: main interpreter.c:32
        slli a5, a5, 0x2                #: main interpreter.c:32
        addi a5, a5, -16                #: main interpreter.c:32
        add a5, a5, s0                  #: main interpreter.c:32
        sw a4, -76(a5)                  #: main interpreter.c:32
        j main$4                        #: main interpreter.c:32
        lw a5, -20(s0)                  #: main interpreter.c:33
        addi a5, a5, -1                 #: main interpreter.c:33
        sw a5, -20(s0)                  #: main interpreter.c:33
        lw a5, -20(s0)                  #: main interpreter.c:33
        addi a5, a5, -1                 #: main interpreter.c:33
        slli a5, a5, 0x2                #: main interpreter.c:33
        addi a5, a5, -16                #: main interpreter.c:33
        add a5, a5, s0                  #: main interpreter.c:33
        lw a3, -76(a5)                  #: main interpreter.c:33
        lw a5, -20(s0)                  #: main interpreter.c:33
        slli a5, a5, 0x2                #: main interpreter.c:33
        addi a5, a5, -16                #: main interpreter.c:33
        add a5, a5, s0                  #: main interpreter.c:33
        lw a4, -76(a5)                  #: main interpreter.c:33
        lw a5, -20(s0)                  #: main interpreter.c:33
        addi a5, a5, -1                 #: main interpreter.c:33
        rem a4, a3, a4                  #: main interpreter.c:33
        slli a5, a5, 0x2                #: main interpreter.c:33
        addi a5, a5, -16                #: main interpreter.c:33
        add a5, a5, s0                  #: main interpreter.c:33
        sw a4, -76(a5)                  #: main interpreter.c:33
        j main$4                        #: main interpreter.c:33
        lw a5, -20(s0)                  #: main interpreter.c:34
        addi a5, a5, -1                 #: main interpreter.c:34
        sw a5, -20(s0)                  #: main interpreter.c:34
        lw a5, -20(s0)                  #: main interpreter.c:34
        addi a5, a5, -1                 #: main interpreter.c:34
        slli a5, a5, 0x2                #: main interpreter.c:34
        addi a5, a5, -16                #: main interpreter.c:34
        add a5, a5, s0                  #: main interpreter.c:34
        lw a4, -76(a5)                  #: main interpreter.c:34
        lw a5, -20(s0)                  #: main interpreter.c:34
        slli a5, a5, 0x2                #: main interpreter.c:34
        addi a5, a5, -16                #: main interpreter.c:34
        add a5, a5, s0                  #: main interpreter.c:34
        lw a5, -76(a5)                  #: main interpreter.c:34
        slt a5, a4, a5                  #: main interpreter.c:34
        andi a4, a5, 255                #: main interpreter.c:34
        lw a5, -20(s0)                  #: main interpreter.c:34
        addi a5, a5, -1                 #: main interpreter.c:34
        slli a5, a5, 0x2                #: main interpreter.c:34
        addi a5, a5, -16                #: main interpreter.c:34
        add a5, a5, s0                  #: main interpreter.c:34
        sw a4, -76(a5)                  #: main interpreter.c:34
        j main$4                        #: main interpreter.c:34
        lw a5, -28(s0)                  #: main interpreter.c:35
        lh a5, 0(a5)                    #: main interpreter.c:35
        slli a4, a5, 0x1                #: main interpreter.c:35
        lui a5, 0x80000                 #: main interpreter.c:35
        addi a5, a5, 848                #: main interpreter.c:35
        add a5, a4, a5                  #: main interpreter.c:35
        sw a5, -28(s0)                  #: main interpreter.c:35
        j main$4                        #: main interpreter.c:35
        lw a5, -20(s0)                  #: main interpreter.c:36
        addi a5, a5, -1                 #: main interpreter.c:36
        sw a5, -20(s0)                  #: main interpreter.c:36
        lw a5, -20(s0)                  #: main interpreter.c:36
        slli a5, a5, 0x2                #: main interpreter.c:36
        addi a5, a5, -16                #: main interpreter.c:36
        add a5, a5, s0                  #: main interpreter.c:36
        lw a5, -76(a5)                  #: main interpreter.c:36
        bnez a5, main$2                 #: main interpreter.c:36
        lw a5, -28(s0)                  #: main interpreter.c:36
        lh a5, 0(a5)                    #: main interpreter.c:36
        slli a4, a5, 0x1                #: main interpreter.c:36
        lui a5, 0x80000                 #: main interpreter.c:36
        addi a5, a5, 848                #: main interpreter.c:36
        add a5, a4, a5                  #: main interpreter.c:36
        j main$3                        #: main interpreter.c:36
main$2: lw a5, -28(s0)                  #: main interpreter.c:36
        addi a5, a5, 2                  #: main interpreter.c:36
main$3: sw a5, -28(s0)                  #: main interpreter.c:36
        j main$4                        #: main interpreter.c:36
        lw a5, -24(s0)                  #: main interpreter.c:37
        slli a4, a5, 0x10               #: main interpreter.c:37
        lw a5, -20(s0)                  #: main interpreter.c:37
        addi a5, a5, -1                 #: main interpreter.c:37
        slli a5, a5, 0x2                #: main interpreter.c:37
        addi a5, a5, -16                #: main interpreter.c:37
        add a5, a5, s0                  #: main interpreter.c:37
        lw a5, -76(a5)                  #: main interpreter.c:37
        xor a5, a4, a5                  #: main interpreter.c:37
        j main$5                        #: main interpreter.c:37
main$4: lw a5, -24(s0)                  #: main interpreter.c:26
        addi a5, a5, 1                  #: main interpreter.c:26
        sw a5, -24(s0)                  #: main interpreter.c:26
        j main$1                        #: main interpreter.c:27
main$5: mv a0, a5                       #: main interpreter.c:39
        lw s0, 108(sp)                  #: main interpreter.c:39
        addi sp, sp, 112                #: main interpreter.c:39
        ret                             #: main interpreter.c:39
        .data
program:
        .word 0x10000
        .word 0x2
        .word 0x1
        .word 0x290000
        .word 0x80006
        .word 0x1003d
        .word 0x10000
        .word 0x30000
        .word 0x1
        .word 0x20003
        .word 0x1
        .word 0x10168
        .word 0x30000
        .word 0x20002
        .word 0x20001
        .word 0x2d0008
        .word 0x10001
        .word 0x20001
        .word 0x10005
        .word 0x20002
        .word 0x20001
        .word 0x70002
        .word 0x1001c
        .word 0x10003
        .word 0x30001
        .word 0x30002
        .word 0x1
        .word 0x10000
        .word 0x20003
        .word 0x70000
        .word 0x10004
        .word 0x90003
        .word 0x80000070
        .word 0x800000a4
        .word 0x800000e8
        .word 0x80000130
        .word 0x80000188
        .word 0x800001e0
        .word 0x80000238
        .word 0x80000294
        .word 0x800002b4
        .word 0x80000304
