# recursion-O2.elf: 1892 bytes of text, 0 of data, 0 of zeros
_start: auipc sp, 0x10                  #: _start start.S:5
        mv sp, sp                       #: _start start.S:5
        jal main                        #: _start start.S:6
        ebreak                          #: _start start.S:7
fibonacci: addi sp, sp, -128            #: fibonacci recursion.c:5
        sw s3, 108(sp)                  #: fibonacci recursion.c:5
        sw ra, 124(sp)                  #: fibonacci recursion.c:5
        sw s0, 120(sp)                  #: fibonacci recursion.c:5
        sw s1, 116(sp)                  #: fibonacci recursion.c:5
        sw s2, 112(sp)                  #: fibonacci recursion.c:5
        sw s4, 104(sp)                  #: fibonacci recursion.c:5
        sw s5, 100(sp)                  #: fibonacci recursion.c:5
        sw s6, 96(sp)                   #: fibonacci recursion.c:5
        sw s7, 92(sp)                   #: fibonacci recursion.c:5
        sw s8, 88(sp)                   #: fibonacci recursion.c:5
        sw s9, 84(sp)                   #: fibonacci recursion.c:5
        sw s10, 80(sp)                  #: fibonacci recursion.c:5
        sw s11, 76(sp)                  #: fibonacci recursion.c:5
        li a5, 1                        #: fibonacci recursion.c:6
        mv s3, a0                       #: fibonacci recursion.c:5
        beq a0, a5, fibonacci$27        #: fibonacci recursion.c:6
        addi a5, a0, -1                 #: fibonacci recursion.c:6
        andi a4, a5, -2                 #: fibonacci recursion.c:6
        sub s10, a0, a4                 #: fibonacci recursion.c:6
        mv s5, a0                       #: fibonacci recursion.c:6
        li s4, 0                        #: fibonacci recursion.c:6
        li s7, 1                        #: fibonacci recursion.c:6
        mv s6, a5                       #: fibonacci recursion.c:6
        beq s5, s10, fibonacci$26       #: fibonacci recursion.c:6
fibonacci$1: addi s5, s5, -2            #: fibonacci recursion.c:6
        andi a5, s5, -2                 #: fibonacci recursion.c:6
        sub s8, s6, a5                  #: fibonacci recursion.c:6
        li s3, 0                        #: fibonacci recursion.c:6
        mv s9, s8                       #: fibonacci recursion.c:6
fibonacci$2: addi s11, s6, -1           #: fibonacci recursion.c:6
        beq s6, s9, fibonacci$24        #: fibonacci recursion.c:6
fibonacci$3: addi s6, s6, -2            #: fibonacci recursion.c:6
        andi a5, s6, -2                 #: fibonacci recursion.c:6
        li s2, 0                        #: fibonacci recursion.c:6
        sub s1, s11, a5                 #: fibonacci recursion.c:6
        mv a3, s4                       #: fibonacci recursion.c:6
        mv a5, s5                       #: fibonacci recursion.c:6
        mv s0, s2                       #: fibonacci recursion.c:6
        mv s5, s10                      #: fibonacci recursion.c:6
        mv s8, s9                       #: fibonacci recursion.c:6
        mv s10, s3                      #: fibonacci recursion.c:6
fibonacci$4: addi s4, s11, -1           #: fibonacci recursion.c:6
        beq s11, s1, fibonacci$23       #: fibonacci recursion.c:6
        addi s11, s11, -2               #: fibonacci recursion.c:6
        andi a4, s11, -2                #: fibonacci recursion.c:6
        sub a1, s4, a4                  #: fibonacci recursion.c:6
        mv a6, a3                       #: fibonacci recursion.c:6
        mv a4, s8                       #: fibonacci recursion.c:6
        mv a2, a5                       #: fibonacci recursion.c:6
        li s9, 0                        #: fibonacci recursion.c:6
        mv a5, s5                       #: fibonacci recursion.c:6
        mv s8, s10                      #: fibonacci recursion.c:6
        mv s5, s11                      #: fibonacci recursion.c:6
        mv a3, s1                       #: fibonacci recursion.c:6
        mv s11, s6                      #: fibonacci recursion.c:6
fibonacci$5: addi s3, s4, -1            #: fibonacci recursion.c:6
        beq s4, a1, fibonacci$22        #: fibonacci recursion.c:6
        addi s4, s4, -2                 #: fibonacci recursion.c:6
        andi s10, s4, -2                #: fibonacci recursion.c:6
        mv t3, a6                       #: fibonacci recursion.c:6
        mv t1, a5                       #: fibonacci recursion.c:6
        mv a6, s11                      #: fibonacci recursion.c:6
        sub s10, s3, s10                #: fibonacci recursion.c:6
        mv s11, s9                      #: fibonacci recursion.c:6
        li s6, 0                        #: fibonacci recursion.c:6
        mv s9, s8                       #: fibonacci recursion.c:6
        mv a7, s5                       #: fibonacci recursion.c:6
        mv s2, s3                       #: fibonacci recursion.c:6
        mv a5, s4                       #: fibonacci recursion.c:6
fibonacci$6: addi s4, s2, -1            #: fibonacci recursion.c:6
        beq s2, s10, fibonacci$21       #: fibonacci recursion.c:6
        addi s2, s2, -2                 #: fibonacci recursion.c:6
        andi s8, s2, -2                 #: fibonacci recursion.c:6
        sub s8, s4, s8                  #: fibonacci recursion.c:6
        li s5, 0                        #: fibonacci recursion.c:6
        mv t6, s8                       #: fibonacci recursion.c:6
fibonacci$7: addi t5, s4, -1            #: fibonacci recursion.c:6
        beq s4, t6, fibonacci$18        #: fibonacci recursion.c:6
        addi t4, s4, -3                 #: fibonacci recursion.c:6
        addi s4, s4, -2                 #: fibonacci recursion.c:6
        andi a0, s4, -2                 #: fibonacci recursion.c:6
        sub a0, t4, a0                  #: fibonacci recursion.c:6
        sw a0, 4(sp)                    #: fibonacci recursion.c:6
        li s1, 0                        #: fibonacci recursion.c:6
fibonacci$8: lw a0, 4(sp)               #: fibonacci recursion.c:6
        addi s3, t5, -1                 #: fibonacci recursion.c:6
        beq a0, t4, fibonacci$19        #: fibonacci recursion.c:6
        andi a0, t4, -2                 #: fibonacci recursion.c:6
        sub a0, s3, a0                  #: fibonacci recursion.c:6
        mv t2, s10                      #: fibonacci recursion.c:6
        sw a0, 0(sp)                    #: fibonacci recursion.c:6
        mv s10, s4                      #: fibonacci recursion.c:6
        li s8, 0                        #: fibonacci recursion.c:6
        mv s4, s2                       #: fibonacci recursion.c:6
        mv s2, s1                       #: fibonacci recursion.c:6
        mv s1, s0                       #: fibonacci recursion.c:6
fibonacci$9: lw a0, 0(sp)               #: fibonacci recursion.c:6
        addi t0, s3, -1                 #: fibonacci recursion.c:6
        beq s3, a0, fibonacci$20        #: fibonacci recursion.c:6
        li s0, 0                        #: fibonacci recursion.c:6
fibonacci$10: addi a0, t0, -1           #: fibonacci recursion.c:6
        sw a2, 60(sp)                   #: fibonacci recursion.c:6
        sw t4, 56(sp)                   #: fibonacci recursion.c:6
        sw t6, 52(sp)                   #: fibonacci recursion.c:6
        sw t2, 48(sp)                   #: fibonacci recursion.c:6
        sw a1, 44(sp)                   #: fibonacci recursion.c:6
        sw a3, 40(sp)                   #: fibonacci recursion.c:6
        sw a4, 36(sp)                   #: fibonacci recursion.c:6
        sw t1, 32(sp)                   #: fibonacci recursion.c:6
        sw a7, 28(sp)                   #: fibonacci recursion.c:6
        sw a6, 24(sp)                   #: fibonacci recursion.c:6
        sw a5, 20(sp)                   #: fibonacci recursion.c:6
        sw t5, 16(sp)                   #: fibonacci recursion.c:6
        sw t3, 12(sp)                   #: fibonacci recursion.c:6
        sw t0, 8(sp)                    #: fibonacci recursion.c:6
        jal fibonacci                   #: fibonacci recursion.c:6
        lw t0, 8(sp)                    #: fibonacci recursion.c:6
        lw t3, 12(sp)                   #: fibonacci recursion.c:6
        lw t5, 16(sp)                   #: fibonacci recursion.c:6
        addi t0, t0, -2                 #: fibonacci recursion.c:6
        lw a5, 20(sp)                   #: fibonacci recursion.c:6
        lw a6, 24(sp)                   #: fibonacci recursion.c:6
        lw a7, 28(sp)                   #: fibonacci recursion.c:6
        lw t1, 32(sp)                   #: fibonacci recursion.c:6
        lw a4, 36(sp)                   #: fibonacci recursion.c:6
        lw a3, 40(sp)                   #: fibonacci recursion.c:6
        lw a1, 44(sp)                   #: fibonacci recursion.c:6
        lw t2, 48(sp)                   #: fibonacci recursion.c:6
        lw t6, 52(sp)                   #: fibonacci recursion.c:6
        lw t4, 56(sp)                   #: fibonacci recursion.c:6
        lw a2, 60(sp)                   #: fibonacci recursion.c:6
        add s0, s0, a0                  #: fibonacci recursion.c:6
        bltu s7, t0, fibonacci$10       #: fibonacci recursion.c:6
        addi a0, s3, -3                 #: fibonacci recursion.c:6
        andi a0, a0, 1                  #: fibonacci recursion.c:6
        add a0, a0, s8                  #: fibonacci recursion.c:6
        addi s3, s3, -2                 #: fibonacci recursion.c:6
        add s8, a0, s0                  #: fibonacci recursion.c:6
        bltu s7, s3, fibonacci$9        #: fibonacci recursion.c:6
        mv s0, s1                       #: fibonacci recursion.c:6
        add s8, s3, s8                  #: fibonacci recursion.c:6
        mv s1, s2                       #: fibonacci recursion.c:6
        mv s2, s4                       #: fibonacci recursion.c:6
        mv s4, s10                      #: fibonacci recursion.c:6
        mv s10, t2                      #: fibonacci recursion.c:6
fibonacci$11: addi t5, t5, -2           #: fibonacci recursion.c:6
        add s1, s1, s8                  #: fibonacci recursion.c:6
        addi t4, t4, -2                 #: fibonacci recursion.c:6
        bltu s7, t5, fibonacci$8        #: fibonacci recursion.c:6
        add s1, t5, s1                  #: fibonacci recursion.c:6
fibonacci$12: add s5, s5, s1            #: fibonacci recursion.c:6
        bltu s7, s4, fibonacci$7        #: fibonacci recursion.c:6
        add s5, s5, s4                  #: fibonacci recursion.c:6
fibonacci$13: add s6, s6, s5            #: fibonacci recursion.c:6
        bltu s7, s2, fibonacci$6        #: fibonacci recursion.c:6
        mv s8, s9                       #: fibonacci recursion.c:6
        mv s4, a5                       #: fibonacci recursion.c:6
        mv s9, s11                      #: fibonacci recursion.c:6
        mv s5, a7                       #: fibonacci recursion.c:6
        mv s11, a6                      #: fibonacci recursion.c:6
        mv a5, t1                       #: fibonacci recursion.c:6
        mv a6, t3                       #: fibonacci recursion.c:6
        add s6, s6, s2                  #: fibonacci recursion.c:6
fibonacci$14: add s9, s9, s6            #: fibonacci recursion.c:6
        bltu s7, s4, fibonacci$5        #: fibonacci recursion.c:6
        mv s10, s8                      #: fibonacci recursion.c:6
        mv s6, s11                      #: fibonacci recursion.c:6
        mv s1, a3                       #: fibonacci recursion.c:6
        mv s11, s5                      #: fibonacci recursion.c:6
        mv s8, a4                       #: fibonacci recursion.c:6
        mv s5, a5                       #: fibonacci recursion.c:6
        mv a3, a6                       #: fibonacci recursion.c:6
        mv a5, a2                       #: fibonacci recursion.c:6
        add s9, s9, s4                  #: fibonacci recursion.c:6
fibonacci$15: add s0, s0, s9            #: fibonacci recursion.c:6
        bltu s7, s11, fibonacci$4       #: fibonacci recursion.c:6
        mv s3, s10                      #: fibonacci recursion.c:6
        add s2, s0, s11                 #: fibonacci recursion.c:6
        mv s10, s5                      #: fibonacci recursion.c:6
        mv s4, a3                       #: fibonacci recursion.c:6
        mv s9, s8                       #: fibonacci recursion.c:6
        mv s5, a5                       #: fibonacci recursion.c:6
        add s3, s3, s2                  #: fibonacci recursion.c:6
        bltu s7, s6, fibonacci$2        #: fibonacci recursion.c:6
fibonacci$16: add s3, s3, s6            #: fibonacci recursion.c:6
        add s4, s4, s3                  #: fibonacci recursion.c:6
        bltu s7, s5, fibonacci$25       #: fibonacci recursion.c:6
fibonacci$17: add s3, s5, s4            #: fibonacci recursion.c:6
        j fibonacci$27                  #: fibonacci recursion.c:6
fibonacci$18: add s5, t5, s5            #: fibonacci recursion.c:6
        j fibonacci$13                  #: fibonacci recursion.c:6
fibonacci$19: add s1, s3, s1            #: fibonacci recursion.c:6
        j fibonacci$12                  #: fibonacci recursion.c:6
fibonacci$20: mv s0, s1                 #: fibonacci recursion.c:6
        add s8, t0, s8                  #: fibonacci recursion.c:6
        mv s1, s2                       #: fibonacci recursion.c:6
        mv s2, s4                       #: fibonacci recursion.c:6
        mv s4, s10                      #: fibonacci recursion.c:6
        mv s10, t2                      #: fibonacci recursion.c:6
        j fibonacci$11                  #: fibonacci recursion.c:6
fibonacci$21: mv s1, s4                 #: fibonacci recursion.c:6
        mv s8, s9                       #: fibonacci recursion.c:6
        mv s4, a5                       #: fibonacci recursion.c:6
        mv s9, s11                      #: fibonacci recursion.c:6
        mv s5, a7                       #: fibonacci recursion.c:6
        mv s11, a6                      #: fibonacci recursion.c:6
        mv a5, t1                       #: fibonacci recursion.c:6
        mv a6, t3                       #: fibonacci recursion.c:6
        add s6, s1, s6                  #: fibonacci recursion.c:6
        j fibonacci$14                  #: fibonacci recursion.c:6
fibonacci$22: mv s10, s8                #: fibonacci recursion.c:6
        mv s6, s11                      #: fibonacci recursion.c:6
        mv s1, a3                       #: fibonacci recursion.c:6
        mv s11, s5                      #: fibonacci recursion.c:6
        mv s8, a4                       #: fibonacci recursion.c:6
        mv s5, a5                       #: fibonacci recursion.c:6
        mv a3, a6                       #: fibonacci recursion.c:6
        mv a5, a2                       #: fibonacci recursion.c:6
        add s9, s3, s9                  #: fibonacci recursion.c:6
        j fibonacci$15                  #: fibonacci recursion.c:6
fibonacci$23: mv s2, s0                 #: fibonacci recursion.c:6
        mv s0, s4                       #: fibonacci recursion.c:6
        mv s3, s10                      #: fibonacci recursion.c:6
        add s2, s0, s2                  #: fibonacci recursion.c:6
        mv s10, s5                      #: fibonacci recursion.c:6
        mv s4, a3                       #: fibonacci recursion.c:6
        mv s9, s8                       #: fibonacci recursion.c:6
        mv s5, a5                       #: fibonacci recursion.c:6
        add s3, s3, s2                  #: fibonacci recursion.c:6
        bgeu s7, s6, fibonacci$16       #: fibonacci recursion.c:6
        addi s11, s6, -1                #: fibonacci recursion.c:6
        bne s6, s9, fibonacci$3         #: fibonacci recursion.c:6
fibonacci$24: add s3, s11, s3           #: fibonacci recursion.c:6
        add s4, s4, s3                  #: fibonacci recursion.c:6
        bgeu s7, s5, fibonacci$17       #: fibonacci recursion.c:6
fibonacci$25: addi a5, s5, -1           #: fibonacci recursion.c:6
        mv s6, a5                       #: fibonacci recursion.c:6
        bne s5, s10, fibonacci$1        #: fibonacci recursion.c:6
fibonacci$26: add s3, a5, s4            #: fibonacci recursion.c:6
fibonacci$27: lw ra, 124(sp)            #: fibonacci recursion.c:7
        lw s0, 120(sp)                  #: fibonacci recursion.c:7
        lw s1, 116(sp)                  #: fibonacci recursion.c:7
        lw s2, 112(sp)                  #: fibonacci recursion.c:7
        lw s4, 104(sp)                  #: fibonacci recursion.c:7
        lw s5, 100(sp)                  #: fibonacci recursion.c:7
        lw s6, 96(sp)                   #: fibonacci recursion.c:7
        lw s7, 92(sp)                   #: fibonacci recursion.c:7
        lw s8, 88(sp)                   #: fibonacci recursion.c:7
        lw s9, 84(sp)                   #: fibonacci recursion.c:7
        lw s10, 80(sp)                  #: fibonacci recursion.c:7
        lw s11, 76(sp)                  #: fibonacci recursion.c:7
        mv a0, s3                       #: fibonacci recursion.c:7
        lw s3, 108(sp)                  #: fibonacci recursion.c:7
        addi sp, sp, 128                #: fibonacci recursion.c:7
        ret                             #: fibonacci recursion.c:7
ackermann: beqz a0, ackermann$47        #: ackermann recursion.c:11
        addi sp, sp, -48                #: ackermann recursion.c:10
        sw s7, 12(sp)                   #: ackermann recursion.c:10
        sw ra, 44(sp)                   #: ackermann recursion.c:10
        sw s0, 40(sp)                   #: ackermann recursion.c:10
        sw s1, 36(sp)                   #: ackermann recursion.c:10
        sw s2, 32(sp)                   #: ackermann recursion.c:10
        sw s3, 28(sp)                   #: ackermann recursion.c:10
        sw s4, 24(sp)                   #: ackermann recursion.c:10
        sw s5, 20(sp)                   #: ackermann recursion.c:10
        sw s6, 16(sp)                   #: ackermann recursion.c:10
        sw s8, 8(sp)                    #: ackermann recursion.c:10
        mv s7, a0                       #: ackermann recursion.c:10
        bnez a1, ackermann$2            #: ackermann recursion.c:13
        addi a5, s7, -1                 #: ackermann recursion.c:11
        li a1, 1                        #: ackermann recursion.c:13
        beqz a5, ackermann$32           #: ackermann recursion.c:11
ackermann$1: bnez a1, ackermann$48      #: ackermann recursion.c:13
        addi s7, s7, -2                 #: ackermann recursion.c:11
        li a1, 1                        #: ackermann recursion.c:13
        beqz s7, ackermann$32           #: ackermann recursion.c:11
ackermann$2: addi a1, a1, -1            #: ackermann recursion.c:13
        mv s8, s7                       #: ackermann recursion.c:13
        li a4, 1                        #: ackermann recursion.c:13
        bnez a1, ackermann$46           #: ackermann recursion.c:13
        addi s6, s8, -1                 #: ackermann recursion.c:11
        beqz s6, ackermann$31           #: ackermann recursion.c:11
ackermann$3: bnez a4, ackermann$4       #: ackermann recursion.c:13
        addi s6, s8, -2                 #: ackermann recursion.c:11
        li a4, 1                        #: ackermann recursion.c:13
        beqz s6, ackermann$31           #: ackermann recursion.c:11
ackermann$4: addi a3, a4, -1            #: ackermann recursion.c:13
        li a5, 1                        #: ackermann recursion.c:13
        mv s8, s6                       #: ackermann recursion.c:13
        bnez a3, ackermann$43           #: ackermann recursion.c:13
ackermann$5: addi s5, s6, -1            #: ackermann recursion.c:11
        beqz s5, ackermann$30           #: ackermann recursion.c:11
ackermann$6: bnez a5, ackermann$7       #: ackermann recursion.c:13
        addi s5, s6, -2                 #: ackermann recursion.c:11
        li a5, 1                        #: ackermann recursion.c:13
        beqz s5, ackermann$30           #: ackermann recursion.c:11
ackermann$7: addi a3, a5, -1            #: ackermann recursion.c:13
        li a4, 1                        #: ackermann recursion.c:13
        mv s6, s5                       #: ackermann recursion.c:13
        bnez a3, ackermann$41           #: ackermann recursion.c:13
ackermann$8: addi s4, s5, -1            #: ackermann recursion.c:11
        beqz s4, ackermann$29           #: ackermann recursion.c:11
ackermann$9: bnez a4, ackermann$10      #: ackermann recursion.c:13
        addi s4, s5, -2                 #: ackermann recursion.c:11
        li a4, 1                        #: ackermann recursion.c:13
        beqz s4, ackermann$29           #: ackermann recursion.c:11
ackermann$10: addi a3, a4, -1           #: ackermann recursion.c:13
        li a5, 1                        #: ackermann recursion.c:13
        mv s5, s4                       #: ackermann recursion.c:13
        bnez a3, ackermann$39           #: ackermann recursion.c:13
ackermann$11: addi s3, s4, -1           #: ackermann recursion.c:11
        beqz s3, ackermann$28           #: ackermann recursion.c:11
ackermann$12: bnez a5, ackermann$13     #: ackermann recursion.c:13
        addi s3, s4, -2                 #: ackermann recursion.c:11
        li a5, 1                        #: ackermann recursion.c:13
        beqz s3, ackermann$28           #: ackermann recursion.c:11
ackermann$13: addi a4, a5, -1           #: ackermann recursion.c:13
        li a1, 1                        #: ackermann recursion.c:13
        mv s4, s3                       #: ackermann recursion.c:13
        bnez a4, ackermann$37           #: ackermann recursion.c:13
ackermann$14: addi s2, s3, -1           #: ackermann recursion.c:11
        beqz s2, ackermann$27           #: ackermann recursion.c:11
ackermann$15: bnez a1, ackermann$16     #: ackermann recursion.c:13
        addi s2, s3, -2                 #: ackermann recursion.c:11
        li a1, 1                        #: ackermann recursion.c:13
        beqz s2, ackermann$27           #: ackermann recursion.c:11
ackermann$16: addi a4, a1, -1           #: ackermann recursion.c:13
        li a5, 1                        #: ackermann recursion.c:13
        mv s3, s2                       #: ackermann recursion.c:13
        bnez a4, ackermann$35           #: ackermann recursion.c:13
ackermann$17: addi s1, s2, -1           #: ackermann recursion.c:11
        beqz s1, ackermann$26           #: ackermann recursion.c:11
ackermann$18: bnez a5, ackermann$19     #: ackermann recursion.c:13
        addi s1, s2, -2                 #: ackermann recursion.c:11
        li a5, 1                        #: ackermann recursion.c:13
        beqz s1, ackermann$26           #: ackermann recursion.c:11
ackermann$19: addi a4, a5, -1           #: ackermann recursion.c:13
        li a1, 1                        #: ackermann recursion.c:13
        mv s2, s1                       #: ackermann recursion.c:13
        bnez a4, ackermann$34           #: ackermann recursion.c:13
ackermann$20: addi a5, s1, -1           #: ackermann recursion.c:11
        beqz a5, ackermann$25           #: ackermann recursion.c:11
ackermann$21: bnez a1, ackermann$45     #: ackermann recursion.c:13
        addi s1, s1, -2                 #: ackermann recursion.c:11
        li a1, 1                        #: ackermann recursion.c:13
        beqz s1, ackermann$25           #: ackermann recursion.c:11
        addi a1, a1, -1                 #: ackermann recursion.c:13
ackermann$22: mv s0, s1                 #: ackermann recursion.c:13
ackermann$23: mv a0, s0                 #: ackermann recursion.c:13
        addi s0, s0, -1                 #: ackermann recursion.c:13
        bnez a1, ackermann$33           #: ackermann recursion.c:13
        li a1, 1                        #: ackermann recursion.c:13
        bnez s0, ackermann$23           #: ackermann recursion.c:11
ackermann$24: addi a5, s1, -1           #: ackermann recursion.c:11
        addi a1, a1, 1                  #: ackermann recursion.c:12
        bnez a5, ackermann$21           #: ackermann recursion.c:11
ackermann$25: addi s1, s2, -1           #: ackermann recursion.c:11
        addi a5, a1, 1                  #: ackermann recursion.c:12
        bnez s1, ackermann$18           #: ackermann recursion.c:11
ackermann$26: addi s2, s3, -1           #: ackermann recursion.c:11
        addi a1, a5, 1                  #: ackermann recursion.c:12
        bnez s2, ackermann$15           #: ackermann recursion.c:11
ackermann$27: addi s3, s4, -1           #: ackermann recursion.c:11
        addi a5, a1, 1                  #: ackermann recursion.c:12
        bnez s3, ackermann$12           #: ackermann recursion.c:11
ackermann$28: addi s4, s5, -1           #: ackermann recursion.c:11
        addi a4, a5, 1                  #: ackermann recursion.c:12
        bnez s4, ackermann$9            #: ackermann recursion.c:11
ackermann$29: addi s5, s6, -1           #: ackermann recursion.c:11
        addi a5, a4, 1                  #: ackermann recursion.c:12
        bnez s5, ackermann$6            #: ackermann recursion.c:11
ackermann$30: addi s6, s8, -1           #: ackermann recursion.c:11
        addi a4, a5, 1                  #: ackermann recursion.c:12
        bnez s6, ackermann$3            #: ackermann recursion.c:11
ackermann$31: addi a5, s7, -1           #: ackermann recursion.c:11
        addi a1, a4, 1                  #: ackermann recursion.c:12
        bnez a5, ackermann$1            #: ackermann recursion.c:11
ackermann$32: lw ra, 44(sp)             #: ackermann recursion.c:14
        lw s0, 40(sp)                   #: ackermann recursion.c:14
        lw s1, 36(sp)                   #: ackermann recursion.c:14
        lw s2, 32(sp)                   #: ackermann recursion.c:14
        lw s3, 28(sp)                   #: ackermann recursion.c:14
        lw s4, 24(sp)                   #: ackermann recursion.c:14
        lw s5, 20(sp)                   #: ackermann recursion.c:14
        lw s6, 16(sp)                   #: ackermann recursion.c:14
        lw s7, 12(sp)                   #: ackermann recursion.c:14
        lw s8, 8(sp)                    #: ackermann recursion.c:14
        addi a0, a1, 1                  #: ackermann recursion.c:12
        addi sp, sp, 48                 #: ackermann recursion.c:14
        ret                             #: ackermann recursion.c:14
ackermann$33: addi a1, a1, -1           #: ackermann recursion.c:13
        jal ackermann                   #: ackermann recursion.c:13
        mv a1, a0                       #: ackermann recursion.c:13
        bnez s0, ackermann$23           #: ackermann recursion.c:11
        j ackermann$24                  #: ackermann recursion.c:11
ackermann$34: addi a1, a5, -2           #: ackermann recursion.c:13
        j ackermann$22                  #: ackermann recursion.c:11
ackermann$35: addi a1, a1, -2           #: ackermann recursion.c:13
ackermann$36: bnez a1, ackermann$49     #: ackermann recursion.c:13
        mv s1, s2                       #: ackermann recursion.c:13
        li a1, 1                        #: ackermann recursion.c:13
        j ackermann$20                  #: ackermann recursion.c:13
ackermann$37: addi a5, a5, -2           #: ackermann recursion.c:13
ackermann$38: bnez a5, ackermann$50     #: ackermann recursion.c:13
        mv s2, s3                       #: ackermann recursion.c:13
        li a5, 1                        #: ackermann recursion.c:13
        j ackermann$17                  #: ackermann recursion.c:13
ackermann$39: addi a4, a4, -2           #: ackermann recursion.c:13
ackermann$40: bnez a4, ackermann$53     #: ackermann recursion.c:13
        mv s3, s4                       #: ackermann recursion.c:13
        li a1, 1                        #: ackermann recursion.c:13
        j ackermann$14                  #: ackermann recursion.c:13
ackermann$41: addi a5, a5, -2           #: ackermann recursion.c:13
ackermann$42: bnez a5, ackermann$52     #: ackermann recursion.c:13
        mv s4, s5                       #: ackermann recursion.c:13
        li a5, 1                        #: ackermann recursion.c:13
        j ackermann$11                  #: ackermann recursion.c:13
ackermann$43: addi a4, a4, -2           #: ackermann recursion.c:13
ackermann$44: bnez a4, ackermann$54     #: ackermann recursion.c:13
        mv s5, s6                       #: ackermann recursion.c:13
        li a4, 1                        #: ackermann recursion.c:13
        j ackermann$8                   #: ackermann recursion.c:13
ackermann$45: mv s1, a5                 #: ackermann recursion.c:11
        addi a1, a1, -1                 #: ackermann recursion.c:13
        j ackermann$22                  #: ackermann recursion.c:11
ackermann$46: addi a5, a1, -1           #: ackermann recursion.c:13
        bnez a5, ackermann$51           #: ackermann recursion.c:13
        mv s6, s7                       #: ackermann recursion.c:13
        li a5, 1                        #: ackermann recursion.c:13
        j ackermann$5                   #: ackermann recursion.c:13
ackermann$47: addi a0, a1, 1            #: ackermann recursion.c:12
        ret                             #: ackermann recursion.c:14
ackermann$48: mv s7, a5                 #: ackermann recursion.c:11
        j ackermann$2                   #: ackermann recursion.c:11
ackermann$49: addi a1, a1, -1           #: ackermann recursion.c:13
        mv s1, s2                       #: ackermann recursion.c:13
        j ackermann$22                  #: ackermann recursion.c:13
ackermann$50: addi a1, a5, -1           #: ackermann recursion.c:13
        mv s2, s3                       #: ackermann recursion.c:13
        j ackermann$36                  #: ackermann recursion.c:13
ackermann$51: addi a4, a1, -2           #: ackermann recursion.c:13
        mv s6, s7                       #: ackermann recursion.c:13
        j ackermann$44                  #: ackermann recursion.c:13
ackermann$52: addi a4, a5, -1           #: ackermann recursion.c:13
        mv s4, s5                       #: ackermann recursion.c:13
        j ackermann$40                  #: ackermann recursion.c:13
ackermann$53: addi a5, a4, -1           #: ackermann recursion.c:13
        mv s3, s4                       #: ackermann recursion.c:13
        j ackermann$38                  #: ackermann recursion.c:13
ackermann$54: addi a5, a4, -1           #: ackermann recursion.c:13
        mv s5, s6                       #: ackermann recursion.c:13
        j ackermann$42                  #: ackermann recursion.c:13
main:   addi sp, sp, -16                #: main recursion.c:17
        li a0, 15                       #: main recursion.c:18
        sw ra, 12(sp)                   #: main recursion.c:17
        sw s0, 8(sp)                    #: main recursion.c:17
        jal fibonacci                   #: main recursion.c:18
        mv s0, a0                       #: main recursion.c:18
        li a1, 9                        #: main recursion.c:18
        li a0, 2                        #: main recursion.c:18
        jal ackermann                   #: main recursion.c:18
        li a5, 1000                     #: main recursion.c:18
        mul s0, s0, a5                  #: main recursion.c:18
        lw ra, 12(sp)                   #: main recursion.c:19
        add a0, s0, a0                  #: main recursion.c:19
        lw s0, 8(sp)                    #: main recursion.c:19
        addi sp, sp, 16                 #: main recursion.c:19
        ret                             #: main recursion.c:19
