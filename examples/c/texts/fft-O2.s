# fft-O2.elf: 928 bytes of text, 34 of data, 526 of zeros
_start: auipc sp, 0x10                  #: _start start.S:5
        mv sp, sp                       #: _start start.S:5
        jal main                        #: _start start.S:6
        ebreak                          #: _start start.S:7
transform: addi sp, sp, -64             #: transform fft.c:39
        lui a7, 0x80000                 #: transform fft.c:39
        sw s11, 16(sp)                  #: transform fft.c:39
        addi s11, a7, 976               #: transform fft.c:39
        sw s10, 20(sp)                  #: transform fft.c:39
        addi s10, s11, 256              #: transform fft.c:39
        sw s9, 24(sp)                   #: transform fft.c:39
        addi t5, a7, 976                #: transform fft.c:25
        mv s9, a0                       #: transform fft.c:39
        sw s0, 60(sp)                   #: transform fft.c:39
        sw s1, 56(sp)                   #: transform fft.c:39
        sw s2, 52(sp)                   #: transform fft.c:39
        sw s3, 48(sp)                   #: transform fft.c:39
        sw s4, 44(sp)                   #: transform fft.c:39
        sw s5, 40(sp)                   #: transform fft.c:39
        sw s6, 36(sp)                   #: transform fft.c:39
        sw s7, 32(sp)                   #: transform fft.c:39
        sw s8, 28(sp)                   #: transform fft.c:39
        mv t1, s10                      #: transform fft.c:25
        addi a7, a7, 976                #: transform fft.c:25
        li a1, 0                        #: transform fft.c:23
        li a6, 5                        #: transform fft.c:26
        li a0, 6                        #: transform fft.c:25
        li t3, 64                       #: transform fft.c:23
transform$1: li a3, 0                   #: transform fft.c:24
        li a4, 0                        #: transform fft.c:25
transform$2: sra a5, a1, a4             #: transform fft.c:26
        sub a2, a6, a4                  #: transform fft.c:26
        andi a5, a5, 1                  #: transform fft.c:26
        sll a5, a5, a2                  #: transform fft.c:26
        addi a4, a4, 1                  #: transform fft.c:25
        or a3, a3, a5                   #: transform fft.c:26
        bne a4, a0, transform$2         #: transform fft.c:25
        bge a1, a3, transform$3         #: transform fft.c:27
        sh2add a3, a3, t5               #: transform fft.c:29
        lw t4, 0(a3)                    #: transform fft.c:29
        lw a2, 256(a3)                  #: transform fft.c:32
        lw a4, 0(a7)                    #: transform fft.c:28
        lw a5, 0(t1)                    #: transform fft.c:31
        sw t4, 0(a7)                    #: transform fft.c:29
        sw a2, 0(t1)                    #: transform fft.c:32
        sw a4, 0(a3)                    #: transform fft.c:30
        sw a5, 256(a3)                  #: transform fft.c:33
transform$3: addi a1, a1, 1             #: transform fft.c:23
        addi a7, a7, 4                  #: transform fft.c:23
        addi t1, t1, 4                  #: transform fft.c:23
        bne a1, t3, transform$1         #: transform fft.c:23
        lui s3, 0x80000                 #: transform fft.c:23
        li a3, 6                        #: transform fft.c:23
        li t0, 1                        #: transform fft.c:41
        addi s3, s3, 928                #: transform fft.c:41
        li s7, 32                       #: transform fft.c:43
        li s4, 16                       #: transform fft.c:18
        li t2, 63                       #: transform fft.c:45
transform$4: div s8, s7, t0             #: transform fft.c:43
        mv s6, t0                       #: transform fft.c:43
        slli t0, t0, 0x1                #: transform fft.c:45
        slli a7, t0, 0x2                #: transform fft.c:45
        slli s5, s6, 0x2                #: transform fft.c:45
        mv s2, s10                      #: transform fft.c:45
        mv s1, s11                      #: transform fft.c:45
        li t6, 16                       #: transform fft.c:45
        li s0, 0                        #: transform fft.c:42
        mv a1, a3                       #: transform fft.c:42
        sw s8, 12(sp)                   #: transform fft.c:42
transform$5: andi a3, t6, 32            #: transform fft.c:16
        addi a5, t6, -16                #: transform fft.c:16
        andi a4, t6, 63                 #: transform fft.c:15
        beqz a3, transform$12           #: transform fft.c:16
        addi a4, a4, -32                #: transform fft.c:17
        andi a3, a4, 32                 #: transform fft.c:16
        andi a4, a4, 63                 #: transform fft.c:15
        beqz a3, transform$14           #: transform fft.c:16
        addi a4, a4, -32                #: transform fft.c:17
        li a3, 1                        #: transform fft.c:17
transform$6: bge s4, a4, transform$7    #: transform fft.c:18
        sub a4, s7, a4                  #: transform fft.c:18
transform$7: sh1add a4, a4, s3          #: transform fft.c:18
        lh t5, 0(a4)                    #: transform fft.c:18
        andi a4, a5, 32                 #: transform fft.c:16
        andi a5, a5, 63                 #: transform fft.c:15
        mul t5, t5, a3                  #: transform fft.c:15
        beqz a4, transform$11           #: transform fft.c:16
        addi a5, a5, -32                #: transform fft.c:17
        andi a4, a5, 32                 #: transform fft.c:16
        andi a5, a5, 63                 #: transform fft.c:15
        beqz a4, transform$13           #: transform fft.c:16
        addi a5, a5, -32                #: transform fft.c:17
        li a4, 1                        #: transform fft.c:17
transform$8: bge s4, a5, transform$9    #: transform fft.c:18
        sub a5, s7, a5                  #: transform fft.c:18
transform$9: sh1add a5, a5, s3          #: transform fft.c:18
        lh t4, 0(a5)                    #: transform fft.c:18
        add a6, s1, s5                  #: transform fft.c:18
        add a0, s2, s5                  #: transform fft.c:18
        mul t4, t4, a4                  #: transform fft.c:44
        mv a2, s2                       #: transform fft.c:17
        mv a3, s1                       #: transform fft.c:17
        mv t3, s0                       #: transform fft.c:17
        mul t4, t4, s9                  #: transform fft.c:44
transform$10: lw a5, 0(a6)              #: transform fft.c:47
        lw t1, 0(a0)                    #: transform fft.c:47
        add t3, t3, t0                  #: transform fft.c:45
        mul s8, t1, t4                  #: transform fft.c:47
        mul a4, a5, t5                  #: transform fft.c:47
        mul t1, t1, t5                  #: transform fft.c:47
        sub a4, a4, s8                  #: transform fft.c:47
        lw s8, 0(a3)                    #: transform fft.c:48
        srai a4, a4, 0xe                #: transform fft.c:47
        sub s8, s8, a4                  #: transform fft.c:48
        sw s8, 0(a6)                    #: transform fft.c:48
        lw s8, 0(a3)                    #: transform fft.c:50
        add a6, a6, a7                  #: transform fft.c:45
        mul a5, a5, t4                  #: transform fft.c:47
        add s8, s8, a4                  #: transform fft.c:50
        lw a4, 0(a2)                    #: transform fft.c:49
        sw s8, 0(a3)                    #: transform fft.c:50
        add a3, a3, a7                  #: transform fft.c:45
        add a5, a5, t1                  #: transform fft.c:47
        srai a5, a5, 0xe                #: transform fft.c:47
        sub a4, a4, a5                  #: transform fft.c:49
        sw a4, 0(a0)                    #: transform fft.c:49
        lw a4, 0(a2)                    #: transform fft.c:51
        add a0, a0, a7                  #: transform fft.c:45
        add a5, a4, a5                  #: transform fft.c:51
        sw a5, 0(a2)                    #: transform fft.c:51
        add a2, a2, a7                  #: transform fft.c:45
        bge t2, t3, transform$10        #: transform fft.c:45
        lw a5, 12(sp)                   #: transform fft.c:42
        addi s0, s0, 1                  #: transform fft.c:42
        addi s1, s1, 4                  #: transform fft.c:42
        add t6, t6, a5                  #: transform fft.c:42
        addi s2, s2, 4                  #: transform fft.c:42
        bne s0, s6, transform$5         #: transform fft.c:42
        addi a3, a1, -1                 #: transform fft.c:41
        bnez a3, transform$4            #: transform fft.c:41
        lw s0, 60(sp)                   #: transform fft.c:54
        lw s1, 56(sp)                   #: transform fft.c:54
        lw s2, 52(sp)                   #: transform fft.c:54
        lw s3, 48(sp)                   #: transform fft.c:54
        lw s4, 44(sp)                   #: transform fft.c:54
        lw s5, 40(sp)                   #: transform fft.c:54
        lw s6, 36(sp)                   #: transform fft.c:54
        lw s7, 32(sp)                   #: transform fft.c:54
        lw s8, 28(sp)                   #: transform fft.c:54
        lw s9, 24(sp)                   #: transform fft.c:54
        lw s10, 20(sp)                  #: transform fft.c:54
        lw s11, 16(sp)                  #: transform fft.c:54
        addi sp, sp, 64                 #: transform fft.c:54
        ret                             #: transform fft.c:54
transform$11: li a4, 1                  #: transform fft.c:16
        j transform$8                   #: transform fft.c:16
transform$12: li a3, 1                  #: transform fft.c:16
        j transform$6                   #: transform fft.c:16
transform$13: li a4, -1                 #: transform fft.c:16
        j transform$8                   #: transform fft.c:16
transform$14: li a3, -1                 #: transform fft.c:16
        j transform$6                   #: transform fft.c:16
main:   addi sp, sp, -16                #: main fft.c:57
        lui a3, 0x80000                 #: main fft.c:57
        lui a2, 0x1                     #: main fft.c:59
        sw s0, 8(sp)                    #: main fft.c:57
        sw s2, 0(sp)                    #: main fft.c:57
        addi s0, a3, 976                #: main fft.c:57
        addi s2, a3, 976                #: main fft.c:57
        sw ra, 12(sp)                   #: main fft.c:57
        sw s1, 4(sp)                    #: main fft.c:57
        addi a3, a3, 976                #: main fft.c:57
        li a5, 0                        #: main fft.c:57
        addi a2, a2, -1728              #: main fft.c:59
main$1: andi a4, a5, 255                #: main fft.c:60
        addi a4, a4, -128               #: main fft.c:60
        sw a4, 0(a3)                    #: main fft.c:60
        addi a5, a5, 37                 #: main fft.c:59
        addi a3, a3, 4                  #: main fft.c:59
        bne a5, a2, main$1              #: main fft.c:59
        li a0, -1                       #: main fft.c:61
        jal transform                   #: main fft.c:61
        addi a3, s2, 256                #: main fft.c:62
        mv a1, a3                       #: main fft.c:62
        li s1, 0                        #: main fft.c:58
main$2: lw a5, 0(s0)                    #: main fft.c:63
        lw a2, 0(a3)                    #: main fft.c:63
        slli a4, s1, 0x5                #: main fft.c:63
        sub a4, a4, s1                  #: main fft.c:63
        sh1add a5, a5, a5               #: main fft.c:63
        addi s0, s0, 4                  #: main fft.c:62
        add a5, a5, a2                  #: main fft.c:63
        add s1, a5, a4                  #: main fft.c:63
        addi a3, a3, 4                  #: main fft.c:62
        bne s0, a1, main$2              #: main fft.c:62
        li a0, 1                        #: main fft.c:64
        jal transform                   #: main fft.c:64
        lw a4, 0(s2)                    #: main fft.c:66
        li a3, 4                        #: main fft.c:67
        srai a5, a4, 0x1f               #: main fft.c:66
        andi a5, a5, 63                 #: main fft.c:66
        add a5, a5, a4                  #: main fft.c:66
        srai a5, a5, 0x6                #: main fft.c:66
        addi a5, a5, 130                #: main fft.c:67
        bltu a3, a5, main$5             #: main fft.c:67
        lui a0, 0x1                     #: main fft.c:65
        addi a3, s2, 4                  #: main fft.c:65
        li a4, 37                       #: main fft.c:67
        li a6, 4                        #: main fft.c:67
        addi a0, a0, -1728              #: main fft.c:65
        j main$4                        #: main fft.c:65
main$3: beq a4, a0, main$7              #: main fft.c:65
main$4: lw a2, 0(a3)                    #: main fft.c:66
        andi a1, a4, 255                #: main fft.c:66
        addi a3, a3, 4                  #: main fft.c:67
        srai a5, a2, 0x1f               #: main fft.c:66
        andi a5, a5, 63                 #: main fft.c:66
        add a5, a5, a2                  #: main fft.c:66
        srai a5, a5, 0x6                #: main fft.c:66
        sub a5, a5, a1                  #: main fft.c:66
        addi a5, a5, 130                #: main fft.c:67
        addi a4, a4, 37                 #: main fft.c:67
        bgeu a6, a5, main$3             #: main fft.c:67
main$5: li a0, -1                       #: main fft.c:68
main$6: lw ra, 12(sp)                   #: main fft.c:71
        lw s0, 8(sp)                    #: main fft.c:71
        lw s1, 4(sp)                    #: main fft.c:71
        lw s2, 0(sp)                    #: main fft.c:71
        addi sp, sp, 16                 #: main fft.c:71
        ret                             #: main fft.c:71
main$7: mv a0, s1                       #: main fft.c:70
        j main$6                        #: main fft.c:70
        .data
quarter:
        .word 0x6460000
        .word 0x12940c7c
        .word 0x1e2b187e
        .word 0x289a238e
        .word 0x31792d41
        .word 0x38713537
        .word 0x3d3f3b21
        .word 0x3fb13ec5
        .byte 0x0
        .byte 0x40
        .zero 14
real:
        .zero 256
imaginary:
        .zero 256
