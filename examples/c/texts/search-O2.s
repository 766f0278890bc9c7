# search-O2.elf: 588 bytes of text, 434 of data, 142 of zeros
_start: auipc sp, 0x10                  #: _start start.S:5
        mv sp, sp                       #: _start start.S:5
        jal main                        #: _start start.S:6
        ebreak                          #: _start start.S:7
main:   addi sp, sp, -80                #: main search.c:37
        sw s9, 36(sp)                   #: main search.c:37
        lui s9, 0x80000                 #: main search.c:37
        sw s7, 44(sp)                   #: main search.c:37
        lui a5, 0x80000                 #: main search.c:37
        addi s7, s9, 660                #: main search.c:37
        sw s2, 64(sp)                   #: main search.c:37
        sw s4, 56(sp)                   #: main search.c:37
        sw s5, 52(sp)                   #: main search.c:37
        sw s8, 40(sp)                   #: main search.c:37
        sw ra, 76(sp)                   #: main search.c:37
        sw s0, 72(sp)                   #: main search.c:37
        sw s1, 68(sp)                   #: main search.c:37
        sw s3, 60(sp)                   #: main search.c:37
        sw s6, 48(sp)                   #: main search.c:37
        sw s10, 32(sp)                  #: main search.c:37
        sw s11, 28(sp)                  #: main search.c:37
        addi s9, s9, 660                #: main search.c:37
        addi s5, s7, 24                 #: main search.c:37
        sw zero, 12(sp)                 #: main search.c:38
        addi s2, a5, 1040               #: main search.c:38
        li s4, 341                      #: main search.c:16
        addi s8, s7, 23                 #: main search.c:17
main$1: lw s1, 0(s9)                    #: main search.c:40
        mv a0, s1                       #: main search.c:14
        jal strlen                      #: main search.c:14
        mv s3, a0                       #: main search.c:14
        bltu s4, a0, main$11            #: main search.c:16
        li a5, 343                      #: main search.c:16
        sub s6, a5, a0                  #: main search.c:16
        li s10, 1                       #: main search.c:16
        li s0, 0                        #: main search.c:15
main$2: add a0, s8, s10                 #: main search.c:17
        mv a2, s3                       #: main search.c:17
        mv a1, s1                       #: main search.c:17
        jal memcmp                      #: main search.c:17
        slli a4, s0, 0x5                #: main search.c:18
        sub a4, a4, s0                  #: main search.c:18
        bnez a0, main$3                 #: main search.c:17
        add s0, a4, s10                 #: main search.c:18
main$3: addi s10, s10, 1                #: main search.c:16
        bne s10, s6, main$2             #: main search.c:16
main$4: mv a0, s1                       #: main search.c:25
        jal strlen                      #: main search.c:25
        lui a5, 0x80000                 #: main search.c:27
        mv a1, a0                       #: main search.c:27
        mv s10, a0                      #: main search.c:25
        li a2, 128                      #: main search.c:27
        addi a0, a5, 1040               #: main search.c:27
        jal memset                      #: main search.c:27
        li a5, 1                        #: main search.c:28
        bgeu a5, s10, main$6            #: main search.c:28
        addi a4, s1, -1                 #: main search.c:28
        andi a1, s10, 255               #: main search.c:29
        add a0, a4, s10                 #: main search.c:29
        mv a5, s1                       #: main search.c:29
        add a1, a1, a4                  #: main search.c:29
main$5: lbu a4, 0(a5)                   #: main search.c:29
        sub a2, a1, a5                  #: main search.c:29
        addi a5, a5, 1                  #: main search.c:28
        add a4, s2, a4                  #: main search.c:29
        sb a2, 0(a4)                    #: main search.c:29
        bne a5, a0, main$5              #: main search.c:28
        li s11, 0                       #: main search.c:26
        bltu s4, s10, main$9            #: main search.c:30
main$6: mv s6, s10                      #: main search.c:29
        li s11, 0                       #: main search.c:26
        li s3, 0                        #: main search.c:30
main$7: mv a2, s10                      #: main search.c:31
        add a0, s5, s3                  #: main search.c:31
        mv a1, s1                       #: main search.c:31
        jal memcmp                      #: main search.c:31
        slli a5, s11, 0x5               #: main search.c:32
        add s6, s7, s6                  #: main search.c:30
        addi a2, s3, 1                  #: main search.c:32
        sub a5, a5, s11                 #: main search.c:32
        bnez a0, main$8                 #: main search.c:31
        add s11, a2, a5                 #: main search.c:32
main$8: lbu a5, 23(s6)                  #: main search.c:30
        add a5, s2, a5                  #: main search.c:30
        lbu a5, 0(a5)                   #: main search.c:30
        add s3, s3, a5                  #: main search.c:30
        add s6, s10, s3                 #: main search.c:30
        bgeu s4, s6, main$7             #: main search.c:30
main$9: bne s11, s0, main$12            #: main search.c:41
        lw a4, 12(sp)                   #: main search.c:43
        addi s9, s9, 4                  #: main search.c:39
        slli a5, a4, 0x3                #: main search.c:43
        sub a5, a5, a4                  #: main search.c:43
        add a5, a5, s11                 #: main search.c:43
        sw a5, 12(sp)                   #: main search.c:43
        bne s5, s9, main$1              #: main search.c:39
        mv a0, a5                       #: main search.c:45
main$10: lw ra, 76(sp)                  #: main search.c:46
        lw s0, 72(sp)                   #: main search.c:46
        lw s1, 68(sp)                   #: main search.c:46
        lw s2, 64(sp)                   #: main search.c:46
        lw s3, 60(sp)                   #: main search.c:46
        lw s4, 56(sp)                   #: main search.c:46
        lw s5, 52(sp)                   #: main search.c:46
        lw s6, 48(sp)                   #: main search.c:46
        lw s7, 44(sp)                   #: main search.c:46
        lw s8, 40(sp)                   #: main search.c:46
        lw s9, 36(sp)                   #: main search.c:46
        lw s10, 32(sp)                  #: main search.c:46
        lw s11, 28(sp)                  #: main search.c:46
        addi sp, sp, 80                 #: main search.c:46
        ret                             #: main search.c:46
main$11: li s0, 0                       #: main search.c:15
        j main$4                        #: main search.c:15
main$12: li a0, -1                      #: main search.c:42
        j main$10                       #: main search.c:42
memset: andi a1, a1, 255                #: memset library.c:16
        mv a5, a0                       #: memset library.c:16
        add a4, a2, a0                  #: memset library.c:16
        beqz a2, memset$2               #: memset library.c:15
memset$1: sb a1, 0(a5)                  #: memset library.c:16
        addi a5, a5, 1                  #: memset library.c:15
        bne a5, a4, memset$1            #: memset library.c:15
memset$2: ret                           #: memset library.c:18
memcmp: beqz a2, memcmp$3               #: memcmp library.c:24
        add a2, a0, a2                  #: memcmp library.c:24
        j memcmp$2                      #: memcmp library.c:24
memcmp$1: beq a0, a2, memcmp$3          #: memcmp library.c:24
memcmp$2: lbu a5, 0(a0)                 #: memcmp library.c:25
        lbu a4, 0(a1)                   #: memcmp library.c:25
        addi a0, a0, 1                  #: memcmp library.c:24
        addi a1, a1, 1                  #: memcmp library.c:24
        beq a5, a4, memcmp$1            #: memcmp library.c:25
        sub a0, a5, a4                  #: memcmp library.c:26
        ret                             #: memcmp library.c:26
memcmp$3: li a0, 0                      #: memcmp library.c:27
        ret                             #: memcmp library.c:28
strlen: lbu a5, 0(a0)                   #: strlen library.c:33
        mv a4, a0                       #: strlen library.c:31
        li a0, 0                        #: strlen library.c:32
        beqz a5, strlen$2               #: strlen library.c:33
strlen$1: addi a0, a0, 1                #: strlen library.c:34
        add a5, a4, a0                  #: strlen library.c:33
        lbu a5, 0(a5)                   #: strlen library.c:33
        bnez a5, strlen$1               #: strlen library.c:33
        ret                             #: strlen library.c:33
strlen$2: ret                           #: strlen library.c:36
        .data
        .word 0x656d6974
        .word 0x73
        .word 0x72636e69
        .word 0x6c756465
        .word 0x797469
        .word 0x20656874
        .word 0x746e6977
        .word 0x6f207265
        .word 0x66
        .word 0x68746f6e
        .word 0x20676e69
        .word 0x6f666562
        .word 0x75206572
        .word 0x2e73
        .word 0x6576656e
        .word 0x72
        .word 0x74
words:
        .word 0x80000250
        .word 0x80000258
        .word 0x80000264
        .word 0x80000274
        .word 0x80000288
        .word 0x80000290
text:
        .word 0x77207449
        .word 0x74207361
        .word 0x62206568
        .word 0x20747365
        .word 0x7420666f
        .word 0x73656d69
        .word 0x7469202c
        .word 0x73617720
        .word 0x65687420
        .word 0x726f7720
        .word 0x6f207473
        .word 0x69742066
        .word 0x2c73656d
        .word 0x20746920
        .word 0x20736177
        .word 0x20656874
        .word 0x20656761
        .word 0x7720666f
        .word 0x6f647369
        .word 0x69202c6d
        .word 0x61772074
        .word 0x68742073
        .word 0x67612065
        .word 0x666f2065
        .word 0x6f6f6620
        .word 0x6873696c
        .word 0x7373656e
        .word 0x7469202c
        .word 0x73617720
        .word 0x65687420
        .word 0x6f706520
        .word 0x6f206863
        .word 0x65622066
        .word 0x6665696c
        .word 0x7469202c
        .word 0x73617720
        .word 0x65687420
        .word 0x6f706520
        .word 0x6f206863
        .word 0x6e692066
        .word 0x64657263
        .word 0x74696c75
        .word 0x69202c79
        .word 0x61772074
        .word 0x68742073
        .word 0x65732065
        .word 0x6e6f7361
        .word 0x20666f20
        .word 0x6867694c
        .word 0x69202c74
        .word 0x61772074
        .word 0x68742073
        .word 0x65732065
        .word 0x6e6f7361
        .word 0x20666f20
        .word 0x6b726144
        .word 0x7373656e
        .word 0x7469202c
        .word 0x73617720
        .word 0x65687420
        .word 0x72707320
        .word 0x20676e69
        .word 0x6820666f
        .word 0x2c65706f
        .word 0x20746920
        .word 0x20736177
        .word 0x20656874
        .word 0x746e6977
        .word 0x6f207265
        .word 0x65642066
        .word 0x69617073
        .word 0x77202c72
        .word 0x61682065
        .word 0x76652064
        .word 0x74797265
        .word 0x676e6968
        .word 0x66656220
        .word 0x2065726f
        .word 0x202c7375
        .word 0x68206577
        .word 0x6e206461
        .word 0x6968746f
        .word 0x6220676e
        .word 0x726f6665
        .word 0x73752065
        .byte 0x2e
        .byte 0x0
        .zero 14
steps.0:
        .zero 128
