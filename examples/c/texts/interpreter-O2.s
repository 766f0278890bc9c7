# interpreter-O2.elf: 484 bytes of text, 168 of data, 0 of zeros
_start: auipc sp, 0x10                  #: _start start.S:5
        mv sp, sp                       #: _start start.S:5
        jal main                        #: _start start.S:6
        ebreak                          #: _start start.S:7
main:   addi sp, sp, -80                #: main interpreter.c:22
        lui a4, 0x80000                 #: main interpreter.c:26
        lui a6, 0x80000                 #: main interpreter.c:26
        addi t1, a4, 536                #: main interpreter.c:26
        sw zero, 0(sp)                  #: main interpreter.c:23
        sw zero, 4(sp)                  #: main interpreter.c:23
        sw zero, 8(sp)                  #: main interpreter.c:23
        sw zero, 12(sp)                 #: main interpreter.c:23
        li a5, 0                        #: main interpreter.c:23
        addi a4, a4, 536                #: main interpreter.c:26
        li a1, 0                        #: main interpreter.c:25
        li a2, 0                        #: main interpreter.c:24
        addi a6, a6, 496                #: main interpreter.c:24
        li a7, 9                        #: main interpreter.c:27
main$1: slli a3, a5, 0x10               #: main interpreter.c:27
        srli a3, a3, 0x10               #: main interpreter.c:27
        addi a0, a4, 2                  #: main interpreter.c:27
        bltu a7, a3, main$4             #: main interpreter.c:27
        sh2add a5, a5, a6               #: main interpreter.c:27
        lw a5, 0(a5)                    #: main interpreter.c:27
        jr a5                           #: main interpreter.c:27
main$2: lh a4, 2(a4)                    #: main interpreter.c:36
        sh1add a4, a4, t1               #: main interpreter.c:36
main$3: lh a5, 0(a4)                    #: main interpreter.c:27
        addi a1, a1, 1                  #: main interpreter.c:26
        j main$1                        #: main interpreter.c:27
        addi t3, a2, -1                 #: main interpreter.c:34
        addi a5, a2, -2                 #: main interpreter.c:34
        addi a4, sp, 80                 #: main interpreter.c:34
        sh2add a5, a5, a4               #: main interpreter.c:34
        sh2add a4, t3, a4               #: main interpreter.c:34
        lw a3, -64(a5)                  #: main interpreter.c:34
        lw t4, -64(a4)                  #: main interpreter.c:34
        mv a2, t3                       #: main interpreter.c:34
        mv a4, a0                       #: main interpreter.c:27
        slt a3, a3, t4                  #: main interpreter.c:34
        sw a3, -64(a5)                  #: main interpreter.c:34
        j main$3                        #: main interpreter.c:34
        addi t3, a2, -1                 #: main interpreter.c:33
        addi a5, a2, -2                 #: main interpreter.c:33
        addi a4, sp, 80                 #: main interpreter.c:33
        sh2add a5, a5, a4               #: main interpreter.c:33
        sh2add a4, t3, a4               #: main interpreter.c:33
        lw a3, -64(a5)                  #: main interpreter.c:33
        lw t4, -64(a4)                  #: main interpreter.c:33
        mv a2, t3                       #: main interpreter.c:33
        mv a4, a0                       #: main interpreter.c:27
        rem a3, a3, t4                  #: main interpreter.c:33
        sw a3, -64(a5)                  #: main interpreter.c:33
        j main$3                        #: main interpreter.c:33
        addi t3, a2, -1                 #: main interpreter.c:32
        addi a5, a2, -2                 #: main interpreter.c:32
        addi a4, sp, 80                 #: main interpreter.c:32
        sh2add a5, a5, a4               #: main interpreter.c:32
        sh2add a4, t3, a4               #: main interpreter.c:32
        lw a3, -64(a5)                  #: main interpreter.c:32
        lw t4, -64(a4)                  #: main interpreter.c:32
        mv a2, t3                       #: main interpreter.c:32
        mv a4, a0                       #: main interpreter.c:27
        sub a3, a3, t4                  #: main interpreter.c:32
        sw a3, -64(a5)                  #: main interpreter.c:32
        j main$3                        #: main interpreter.c:32
        addi t3, a2, -1                 #: main interpreter.c:31
        addi a5, a2, -2                 #: main interpreter.c:31
        addi a4, sp, 80                 #: main interpreter.c:31
        sh2add a5, a5, a4               #: main interpreter.c:31
        sh2add a4, t3, a4               #: main interpreter.c:31
        lw a3, -64(a5)                  #: main interpreter.c:31
        lw t4, -64(a4)                  #: main interpreter.c:31
        mv a2, t3                       #: main interpreter.c:31
        mv a4, a0                       #: main interpreter.c:27
        add a3, a3, t4                  #: main interpreter.c:31
        sw a3, -64(a5)                  #: main interpreter.c:31
        j main$3                        #: main interpreter.c:31
        addi a2, a2, -1                 #: main interpreter.c:30
        addi a3, sp, 80                 #: main interpreter.c:30
        lh a5, 2(a4)                    #: main interpreter.c:30
        sh2add a3, a2, a3               #: main interpreter.c:30
        lw a3, -64(a3)                  #: main interpreter.c:30
        addi a0, sp, 80                 #: main interpreter.c:30
        sh2add a5, a5, a0               #: main interpreter.c:30
        addi a4, a4, 4                  #: main interpreter.c:30
        sw a3, -80(a5)                  #: main interpreter.c:30
        j main$3                        #: main interpreter.c:30
        lh a5, 2(a4)                    #: main interpreter.c:29
        addi a0, sp, 80                 #: main interpreter.c:29
        addi a3, sp, 80                 #: main interpreter.c:29
        sh2add a5, a5, a0               #: main interpreter.c:29
        lw a5, -80(a5)                  #: main interpreter.c:29
        sh2add a3, a2, a3               #: main interpreter.c:29
        addi a4, a4, 4                  #: main interpreter.c:29
        addi a2, a2, 1                  #: main interpreter.c:29
        sw a5, -64(a3)                  #: main interpreter.c:29
        j main$3                        #: main interpreter.c:29
        lh a3, 2(a4)                    #: main interpreter.c:28
        addi a5, sp, 80                 #: main interpreter.c:28
        sh2add a5, a2, a5               #: main interpreter.c:28
        addi a4, a4, 4                  #: main interpreter.c:28
        sw a3, -64(a5)                  #: main interpreter.c:28
        addi a2, a2, 1                  #: main interpreter.c:28
        j main$3                        #: main interpreter.c:28
        addi a5, sp, 80                 #: main interpreter.c:37
        sh2add a2, a2, a5               #: main interpreter.c:37
        lw a5, -68(a2)                  #: main interpreter.c:37
        slli a0, a1, 0x10               #: main interpreter.c:37
        xor a0, a0, a5                  #: main interpreter.c:37
        addi sp, sp, 80                 #: main interpreter.c:39
        ret                             #: main interpreter.c:39
        addi a2, a2, -1                 #: main interpreter.c:36
        addi a5, sp, 80                 #: main interpreter.c:36
        sh2add a5, a2, a5               #: main interpreter.c:36
        lw a5, -64(a5)                  #: main interpreter.c:36
        beqz a5, main$2                 #: main interpreter.c:36
        addi a4, a4, 4                  #: main interpreter.c:36
        j main$3                        #: main interpreter.c:36
main$4: mv a4, a0                       #: main interpreter.c:27
        j main$3                        #: main interpreter.c:27
        .data
        .word 0x80000188
        .word 0x80000160
        .word 0x80000138
        .word 0x80000108
        .word 0x800000d8
        .word 0x800000a8
        .word 0x80000078
        .word 0x80000064  # main$2
        .word 0x800001c0
        .word 0x800001a4
program:
        .word 0x10000
        .word 0x2
        .word 0x1
        .word 0x290000
        .word 0x80006
        .word 0x1003d
        .word 0x10000
        .word 0x30000
        .word 0x1
        .word 0x20003
        .word 0x1
        .word 0x10168
        .word 0x30000
        .word 0x20002
        .word 0x20001
        .word 0x2d0008
        .word 0x10001
        .word 0x20001
        .word 0x10005
        .word 0x20002
        .word 0x20001
        .word 0x70002
        .word 0x1001c
        .word 0x10003
        .word 0x30001
        .word 0x30002
        .word 0x1
        .word 0x10000
        .word 0x20003
        .word 0x70000
        .word 0x10004
        .word 0x90003
