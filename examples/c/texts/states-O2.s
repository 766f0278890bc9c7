# states-O2.elf: 572 bytes of text, 193 of data, 0 of zeros
_start: auipc sp, 0x10                  #: _start start.S:5
        mv sp, sp                       #: _start start.S:5
        jal main                        #: _start start.S:6
        ebreak                          #: _start start.S:7
begin:  li a5, 90                       #: begin states.c:22
        bltu a5, a0, begin$3            #: begin states.c:22
        li a5, 64                       #: begin states.c:22
        bltu a5, a0, begin$4            #: begin states.c:22
        li a5, 35                       #: begin states.c:22
        beq a0, a5, begin$6             #: begin states.c:22
        bgeu a5, a0, begin$2            #: begin states.c:22
        addi a0, a0, -48                #: begin states.c:22
        andi a0, a0, 255                #: begin states.c:22
        li a5, 9                        #: begin states.c:22
        bltu a5, a0, begin$5            #: begin states.c:22
        addi a1, a1, 8                  #: begin states.c:23
        li a0, 2                        #: begin states.c:23
begin$1: lw a5, 0(a1)                   #: begin states.c:23
        addi a5, a5, 1                  #: begin states.c:23
        sw a5, 0(a1)                    #: begin states.c:23
        ret                             #: begin states.c:25
begin$2: li a5, 34                      #: begin states.c:25
        bne a0, a5, begin$5             #: begin states.c:25
        lw a5, 16(a1)                   #: begin states.c:23
        addi a1, a1, 16                 #: begin states.c:23
        li a0, 4                        #: begin states.c:23
        addi a5, a5, 1                  #: begin states.c:23
        sw a5, 0(a1)                    #: begin states.c:23
        ret                             #: begin states.c:25
begin$3: li a5, 95                      #: begin states.c:25
        beq a0, a5, begin$4             #: begin states.c:25
        addi a0, a0, -97                #: begin states.c:25
        andi a5, a0, 255                #: begin states.c:25
        li a4, 25                       #: begin states.c:25
        li a0, 0                        #: begin states.c:23
        bltu a4, a5, begin$1            #: begin states.c:23
begin$4: lw a5, 4(a1)                   #: begin states.c:23
        addi a1, a1, 4                  #: begin states.c:23
        li a0, 1                        #: begin states.c:23
        addi a5, a5, 1                  #: begin states.c:23
        sw a5, 0(a1)                    #: begin states.c:23
        ret                             #: begin states.c:25
begin$5: lw a5, 0(a1)                   #: begin states.c:23
        li a0, 0                        #: begin states.c:23
        addi a5, a5, 1                  #: begin states.c:23
        sw a5, 0(a1)                    #: begin states.c:23
        ret                             #: begin states.c:25
begin$6: lw a5, 12(a1)                  #: begin states.c:23
        addi a1, a1, 12                 #: begin states.c:23
        li a0, 3                        #: begin states.c:23
        addi a5, a5, 1                  #: begin states.c:23
        sw a5, 0(a1)                    #: begin states.c:23
        ret                             #: begin states.c:25
main:   addi sp, sp, -80                #: main states.c:45
        sw s5, 52(sp)                   #: main states.c:45
        lui s5, 0x80000                 #: main states.c:45
        sw s1, 68(sp)                   #: main states.c:45
        sw s4, 56(sp)                   #: main states.c:45
        sw s6, 48(sp)                   #: main states.c:45
        sw s7, 44(sp)                   #: main states.c:45
        sw ra, 76(sp)                   #: main states.c:45
        sw s0, 72(sp)                   #: main states.c:45
        sw s2, 64(sp)                   #: main states.c:45
        sw s3, 60(sp)                   #: main states.c:45
        sw s8, 40(sp)                   #: main states.c:45
        sw zero, 8(sp)                  #: main states.c:46
        sw zero, 12(sp)                 #: main states.c:46
        sw zero, 16(sp)                 #: main states.c:46
        sw zero, 20(sp)                 #: main states.c:46
        sw zero, 24(sp)                 #: main states.c:46
        sw zero, 28(sp)                 #: main states.c:46
        li s1, 4                        #: main states.c:46
        li a5, 0                        #: main states.c:47
        addi s5, s5, 576                #: main states.c:47
        li s6, 4                        #: main states.c:29
        li s4, 92                       #: main states.c:36
        li s7, 5                        #: main states.c:36
main$1: mv s0, s5                       #: main states.c:49
        li a0, 105                      #: main states.c:49
        li s8, 3                        #: main states.c:29
        li s3, 10                       #: main states.c:34
        li s2, 25                       #: main states.c:12
        beq a5, s6, main$8              #: main states.c:29
main$2: bltu s6, a5, main$9             #: main states.c:29
        bne a5, s8, main$5              #: main states.c:29
main$3: beq a0, s3, main$11             #: main states.c:34
        lbu a0, 1(s0)                   #: main states.c:49
        addi s0, s0, 1                  #: main states.c:49
        bnez a0, main$3                 #: main states.c:49
main$4: addi s1, s1, -1                 #: main states.c:48
        bnez s1, main$1                 #: main states.c:48
        lw a5, 12(sp)                   #: main states.c:51
        lw a4, 16(sp)                   #: main states.c:51
        lw a0, 20(sp)                   #: main states.c:51
        slli a5, a5, 0x18               #: main states.c:51
        slli a4, a4, 0x10               #: main states.c:51
        or a5, a5, a4                   #: main states.c:51
        lw a4, 24(sp)                   #: main states.c:51
        lw ra, 76(sp)                   #: main states.c:52
        lw s0, 72(sp)                   #: main states.c:52
        or a5, a5, a4                   #: main states.c:51
        slli a0, a0, 0x8                #: main states.c:51
        lw s1, 68(sp)                   #: main states.c:52
        lw s2, 64(sp)                   #: main states.c:52
        lw s3, 60(sp)                   #: main states.c:52
        lw s4, 56(sp)                   #: main states.c:52
        lw s5, 52(sp)                   #: main states.c:52
        lw s6, 48(sp)                   #: main states.c:52
        lw s7, 44(sp)                   #: main states.c:52
        lw s8, 40(sp)                   #: main states.c:52
        or a0, a5, a0                   #: main states.c:52
        addi sp, sp, 80                 #: main states.c:52
        ret                             #: main states.c:52
main$5: bnez a5, main$10                #: main states.c:29
main$6: addi a1, sp, 8                  #: main states.c:40
        jal begin                       #: main states.c:40
        mv a5, a0                       #: main states.c:40
main$7: lbu a0, 1(s0)                   #: main states.c:49
        addi s0, s0, 1                  #: main states.c:49
        beqz a0, main$4                 #: main states.c:49
        bne a5, s6, main$2              #: main states.c:29
main$8: li a5, 5                        #: main states.c:36
        beq a0, s4, main$7              #: main states.c:36
        addi a0, a0, -34                #: main states.c:36
        snez a0, a0                     #: main states.c:36
        slli a5, a0, 0x2                #: main states.c:36
        j main$7                        #: main states.c:36
main$9: bne a5, s7, main$6              #: main states.c:29
        li a5, 4                        #: main states.c:29
        j main$7                        #: main states.c:29
main$10: andi a4, a0, -33               #: main states.c:12
        addi a4, a4, -65                #: main states.c:12
        andi a4, a4, 255                #: main states.c:12
        bgeu s2, a4, main$7             #: main states.c:12
        li a4, 95                       #: main states.c:12
        beq a0, a4, main$7              #: main states.c:12
        addi a4, a0, -48                #: main states.c:17
        andi a4, a4, 255                #: main states.c:32
        li a3, 9                        #: main states.c:32
        bgeu a3, a4, main$7             #: main states.c:32
        j main$6                        #: main states.c:32
main$11: li a5, 0                       #: main states.c:36
        j main$7                        #: main states.c:36
        .data
text:
        .word 0x20746e69
        .word 0x6e69616d
        .word 0x696f7628
        .word 0x23202964
        .word 0x65687420
        .word 0x61747320
        .word 0x7b0a7472
        .word 0x746e6920
        .word 0x756f6320
        .word 0x3d20746e
        .word 0x31783020
        .word 0x70203b66
        .word 0x746e6972
        .word 0x20612228
        .word 0x5c62225c
        .word 0x20232022
        .word 0x202c2263
        .word 0x202c3231
        .word 0x6e756f63
        .word 0x203b2974
        .word 0x6e222023
        .word 0x7473206f
        .word 0x676e6972
        .word 0x20200a22
        .word 0x20726f66
        .word 0x746e6928
        .word 0x3d206920
        .word 0x203b3020
        .word 0x203c2069
        .word 0x3b303031
        .word 0x2b2b6920
        .word 0x6f632029
        .word 0x20746e75
        .word 0x69203d2b
        .word 0x33202a20
        .word 0x6572203b
        .word 0x6e727574
        .word 0x756f6320
        .word 0x2d20746e
        .word 0x32303120
        .word 0x7d203b34
        .word 0x3420230a
        .word 0x68742032
        .word 0x6e652065
        .word 0x6e690a64
        .word 0x616c2074
        .word 0x3d207473
        .word 0xa3b3720
        .byte 0x0
