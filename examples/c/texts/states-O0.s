# states-O0.elf: 904 bytes of text, 193 of data, 0 of zeros
_start: auipc sp, 0x10                  #: _start start.S:5
        mv sp, sp                       #: _start start.S:5
        jal main                        #: _start start.S:6
        ebreak                          #: _start start.S:7
is_letter: addi sp, sp, -32             #: is_letter states.c:11
        sw s0, 28(sp)                   #: is_letter states.c:11
        addi s0, sp, 32                 #: is_letter states.c:11
        mv a5, a0                       #: is_letter states.c:11
        sb a5, -17(s0)                  #: is_letter states.c:11
        lbu a4, -17(s0)                 #: is_letter states.c:12
        li a5, 96                       #: is_letter states.c:12
        bgeu a5, a4, is_letter$1        #: is_letter states.c:12
        lbu a4, -17(s0)                 #: is_letter states.c:12
        li a5, 122                      #: is_letter states.c:12
        bgeu a5, a4, is_letter$3        #: is_letter states.c:12
is_letter$1: lbu a4, -17(s0)            #: is_letter states.c:12
        li a5, 64                       #: is_letter states.c:12
        bgeu a5, a4, is_letter$2        #: is_letter states.c:12
        lbu a4, -17(s0)                 #: is_letter states.c:12
        li a5, 90                       #: is_letter states.c:12
        bgeu a5, a4, is_letter$3        #: is_letter states.c:12
is_letter$2: lbu a4, -17(s0)            #: is_letter states.c:12
        li a5, 95                       #: is_letter states.c:12
        bne a4, a5, is_letter$4         #: is_letter states.c:12
is_letter$3: li a5, 1                   #: is_letter states.c:12
        j is_letter$5                   #: is_letter states.c:12
is_letter$4: li a5, 0                   #: is_letter states.c:12
is_letter$5: mv a0, a5                  #: is_letter states.c:13
        lw s0, 28(sp)                   #: is_letter states.c:13
        addi sp, sp, 32                 #: is_letter states.c:13
        ret                             #: is_letter states.c:13
is_digit: addi sp, sp, -32              #: is_digit states.c:16
        sw s0, 28(sp)                   #: is_digit states.c:16
        addi s0, sp, 32                 #: is_digit states.c:16
        mv a5, a0                       #: is_digit states.c:16
        sb a5, -17(s0)                  #: is_digit states.c:16
        lbu a4, -17(s0)                 #: is_digit states.c:17
        li a5, 47                       #: is_digit states.c:17
        bgeu a5, a4, is_digit$1         #: is_digit states.c:17
        lbu a4, -17(s0)                 #: is_digit states.c:17
        li a5, 57                       #: is_digit states.c:17
        bltu a5, a4, is_digit$1         #: is_digit states.c:17
        li a5, 1                        #: is_digit states.c:17
        j is_digit$2                    #: is_digit states.c:17
is_digit$1: li a5, 0                    #: is_digit states.c:17
is_digit$2: mv a0, a5                   #: is_digit states.c:18
        lw s0, 28(sp)                   #: is_digit states.c:18
        addi sp, sp, 32                 #: is_digit states.c:18
        ret                             #: is_digit states.c:18
begin:  addi sp, sp, -48                #: begin states.c:21
        sw ra, 44(sp)                   #: begin states.c:21
        sw s0, 40(sp)                   #: begin states.c:21
        addi s0, sp, 48                 #: begin states.c:21
        mv a5, a0                       #: begin states.c:21
        sw a1, -40(s0)                  #: begin states.c:21
        sb a5, -33(s0)                  #: begin states.c:21
        lbu a5, -33(s0)                 #: begin states.c:22
        mv a0, a5                       #: begin states.c:22
        jal is_letter                   #: begin states.c:22
        mv a5, a0                       #: begin states.c:22
        bnez a5, begin$4                #: begin states.c:22
        lbu a5, -33(s0)                 #: begin states.c:22
        mv a0, a5                       #: begin states.c:22
        jal is_digit                    #: begin states.c:22
        mv a5, a0                       #: begin states.c:22
        bnez a5, begin$3                #: begin states.c:22
        lbu a4, -33(s0)                 #: begin states.c:22
        li a5, 35                       #: begin states.c:22
        beq a4, a5, begin$2             #: begin states.c:22
        lbu a4, -33(s0)                 #: begin states.c:22
        li a5, 34                       #: begin states.c:22
        bne a4, a5, begin$1             #: begin states.c:22
        li a5, 4                        #: begin states.c:22
        j begin$5                       #: begin states.c:22
begin$1: li a5, 0                       #: begin states.c:22
        j begin$5                       #: begin states.c:22
begin$2: li a5, 3                       #: begin states.c:22
        j begin$5                       #: begin states.c:22
begin$3: li a5, 2                       #: begin states.c:22
        j begin$5                       #: begin states.c:22
begin$4: li a5, 1                       #: begin states.c:22
begin$5: sw a5, -20(s0)                 #: begin states.c:22
        lw a5, -20(s0)                  #: begin states.c:23
        slli a5, a5, 0x2                #: begin states.c:23
        lw a4, -40(s0)                  #: begin states.c:23
        add a5, a4, a5                  #: begin states.c:23
        lw a4, 0(a5)                    #: begin states.c:23
        addi a4, a4, 1                  #: begin states.c:23
        sw a4, 0(a5)                    #: begin states.c:23
        lw a5, -20(s0)                  #: begin states.c:24
        mv a0, a5                       #: begin states.c:25
        lw ra, 44(sp)                   #: begin states.c:25
        lw s0, 40(sp)                   #: begin states.c:25
        addi sp, sp, 48                 #: begin states.c:25
        ret                             #: begin states.c:25
step:   addi sp, sp, -32                #: step states.c:28
        sw ra, 28(sp)                   #: step states.c:28
        sw s0, 24(sp)                   #: step states.c:28
        addi s0, sp, 32                 #: step states.c:28
        sw a0, -20(s0)                  #: step states.c:28
        mv a5, a1                       #: step states.c:28
        sw a2, -28(s0)                  #: step states.c:28
        sb a5, -21(s0)                  #: step states.c:28
        lw a4, -20(s0)                  #: step states.c:29
        li a5, 5                        #: step states.c:29
        beq a4, a5, step$9              #: step states.c:29
        lw a4, -20(s0)                  #: step states.c:29
        li a5, 5                        #: step states.c:29
        bltu a5, a4, step$10            #: step states.c:29
        lw a4, -20(s0)                  #: step states.c:29
        li a5, 4                        #: step states.c:29
        beq a4, a5, step$6              #: step states.c:29
        lw a4, -20(s0)                  #: step states.c:29
        li a5, 4                        #: step states.c:29
        bltu a5, a4, step$10            #: step states.c:29
        lw a4, -20(s0)                  #: step states.c:29
        li a5, 2                        #: step states.c:29
        bltu a5, a4, step$1             #: step states.c:29
        lw a5, -20(s0)                  #: step states.c:29
        bnez a5, step$2                 #: step states.c:29
        j step$10                       #: step states.c:29
step$1: lw a4, -20(s0)                  #: step states.c:29
        li a5, 3                        #: step states.c:29
        beq a4, a5, step$4              #: step states.c:29
        j step$10                       #: step states.c:29
step$2: lbu a5, -21(s0)                 #: step states.c:32
        mv a0, a5                       #: step states.c:32
        jal is_letter                   #: step states.c:32
        mv a5, a0                       #: step states.c:32
        bnez a5, step$3                 #: step states.c:32
        lbu a5, -21(s0)                 #: step states.c:32
        mv a0, a5                       #: step states.c:32
        jal is_digit                    #: step states.c:32
        mv a5, a0                       #: step states.c:32
        bnez a5, step$3                 #: step states.c:32
        lbu a5, -21(s0)                 #: step states.c:32
        lw a1, -28(s0)                  #: step states.c:32
        mv a0, a5                       #: step states.c:32
        jal begin                       #: step states.c:32
        mv a5, a0                       #: step states.c:32
        j step$11                       #: step states.c:32
step$3: lw a5, -20(s0)                  #: step states.c:32
        j step$11                       #: step states.c:32
step$4: lbu a4, -21(s0)                 #: step states.c:34
        li a5, 10                       #: step states.c:34
        bne a4, a5, step$5              #: step states.c:34
        li a5, 0                        #: step states.c:34
        j step$11                       #: step states.c:34
step$5: li a5, 3                        #: step states.c:34
        j step$11                       #: step states.c:34
step$6: lbu a4, -21(s0)                 #: step states.c:36
        li a5, 92                       #: step states.c:36
        beq a4, a5, step$8              #: step states.c:36
        lbu a4, -21(s0)                 #: step states.c:36
        li a5, 34                       #: step states.c:36
        bne a4, a5, step$7              #: step states.c:36
        li a5, 0                        #: step states.c:36
        j step$11                       #: step states.c:36
step$7: li a5, 4                        #: step states.c:36
        j step$11                       #: step states.c:36
step$8: li a5, 5                        #: step states.c:36
        j step$11                       #: step states.c:36
step$9: li a5, 4                        #: step states.c:38
        j step$11                       #: step states.c:38
step$10: lbu a5, -21(s0)                #: step states.c:40
        lw a1, -28(s0)                  #: step states.c:40
        mv a0, a5                       #: step states.c:40
        jal begin                       #: step states.c:40
        mv a5, a0                       #: step states.c:40
step$11: mv a0, a5                      #: step states.c:42
        lw ra, 28(sp)                   #: step states.c:42
        lw s0, 24(sp)                   #: step states.c:42
        addi sp, sp, 32                 #: step states.c:42
        ret                             #: step states.c:42
main:   addi sp, sp, -64                #: main states.c:45
        sw ra, 60(sp)                   #: main states.c:45
        sw s0, 56(sp)                   #: main states.c:45
        addi s0, sp, 64                 #: main states.c:45
        sw zero, -52(s0)                #: main states.c:46
        sw zero, -48(s0)                #: main states.c:46
        sw zero, -44(s0)                #: main states.c:46
        sw zero, -40(s0)                #: main states.c:46
        sw zero, -36(s0)                #: main states.c:46
        sw zero, -32(s0)                #: main states.c:46
        sw zero, -20(s0)                #: main states.c:47
        sw zero, -24(s0)                #: main states.c:48
        j main$4                        #: main states.c:48
main$1: lui a5, 0x80000                 #: main states.c:49
        addi a5, a5, 912                #: main states.c:49
        sw a5, -28(s0)                  #: main states.c:49
        j main$3                        #: main states.c:49
main$2: lw a5, -28(s0)                  #: main states.c:50
        lbu a5, 0(a5)                   #: main states.c:50
        addi a4, s0, -52                #: main states.c:50
        mv a2, a4                       #: main states.c:50
        mv a1, a5                       #: main states.c:50
        lw a0, -20(s0)                  #: main states.c:50
        jal step                        #: main states.c:50
        sw a0, -20(s0)                  #: main states.c:50
        lw a5, -28(s0)                  #: main states.c:49
        addi a5, a5, 1                  #: main states.c:49
        sw a5, -28(s0)                  #: main states.c:49
main$3: lw a5, -28(s0)                  #: main states.c:49
        lbu a5, 0(a5)                   #: main states.c:49
        bnez a5, main$2                 #: main states.c:49
        lw a5, -24(s0)                  #: main states.c:48
        addi a5, a5, 1                  #: main states.c:48
        sw a5, -24(s0)                  #: main states.c:48
main$4: lw a4, -24(s0)                  #: main states.c:48
        li a5, 3                        #: main states.c:48
        bge a5, a4, main$1              #: main states.c:48
        lw a5, -48(s0)                  #: main states.c:51
        slli a4, a5, 0x18               #: main states.c:51
        lw a5, -44(s0)                  #: main states.c:51
        slli a5, a5, 0x10               #: main states.c:51
        or a4, a4, a5                   #: main states.c:51
        lw a5, -40(s0)                  #: main states.c:51
        slli a5, a5, 0x8                #: main states.c:51
        or a4, a4, a5                   #: main states.c:51
        lw a5, -36(s0)                  #: main states.c:51
        or a5, a4, a5                   #: main states.c:51
        mv a0, a5                       #: main states.c:52
        lw ra, 60(sp)                   #: main states.c:52
        lw s0, 56(sp)                   #: main states.c:52
        addi sp, sp, 64                 #: main states.c:52
        ret                             #: main states.c:52
        .data
text:
        .word 0x20746e69
        .word 0x6e69616d
        .word 0x696f7628
        .word 0x23202964
        .word 0x65687420
        .word 0x61747320
        .word 0x7b0a7472
        .word 0x746e6920
        .word 0x756f6320
        .word 0x3d20746e
        .word 0x31783020
        .word 0x70203b66
        .word 0x746e6972
        .word 0x20612228
        .word 0x5c62225c
        .word 0x20232022
        .word 0x202c2263
        .word 0x202c3231
        .word 0x6e756f63
        .word 0x203b2974
        .word 0x6e222023
        .word 0x7473206f
        .word 0x676e6972
        .word 0x20200a22
        .word 0x20726f66
        .word 0x746e6928
        .word 0x3d206920
        .word 0x203b3020
        .word 0x203c2069
        .word 0x3b303031
        .word 0x2b2b6920
        .word 0x6f632029
        .word 0x20746e75
        .word 0x69203d2b
        .word 0x33202a20
        .word 0x6572203b
        .word 0x6e727574
        .word 0x756f6320
        .word 0x2d20746e
        .word 0x32303120
        .word 0x7d203b34
        .word 0x3420230a
        .word 0x68742032
        .word 0x6e652065
        .word 0x6e690a64
        .word 0x616c2074
        .word 0x3d207473
        .word 0xa3b3720
        .byte 0x0
