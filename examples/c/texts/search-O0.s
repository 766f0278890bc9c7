# search-O0.elf: 1108 bytes of text, 436 of data, 140 of zeros
_start: auipc sp, 0x10                  #: _start start.S:5
        mv sp, sp                       #: _start start.S:5
        jal main                        #: _start start.S:6
        ebreak                          #: _start start.S:7
each_place: addi sp, sp, -48            #: each_place search.c:13
        sw ra, 44(sp)                   #: each_place search.c:13
        sw s0, 40(sp)                   #: each_place search.c:13
        addi s0, sp, 48                 #: each_place search.c:13
        sw a0, -36(s0)                  #: each_place search.c:13
        lw a0, -36(s0)                  #: each_place search.c:14
        jal strlen                      #: each_place search.c:14
        sw a0, -28(s0)                  #: each_place search.c:14
        li a5, 341                      #: each_place search.c:14
        sw a5, -32(s0)                  #: each_place search.c:14
        sw zero, -20(s0)                #: each_place search.c:15
        sw zero, -24(s0)                #: each_place search.c:16
        j each_place$3                  #: each_place search.c:16
each_place$1: lw a4, -24(s0)            #: each_place search.c:17
        lui a5, 0x80000                 #: each_place search.c:17
        addi a5, a5, 1120               #: each_place search.c:17
        add a5, a4, a5                  #: each_place search.c:17
        lw a2, -28(s0)                  #: each_place search.c:17
        lw a1, -36(s0)                  #: each_place search.c:17
        mv a0, a5                       #: each_place search.c:17
        jal memcmp                      #: each_place search.c:17
        mv a5, a0                       #: each_place search.c:17
        bnez a5, each_place$2           #: each_place search.c:17
        lw a4, -20(s0)                  #: each_place search.c:18
        mv a5, a4                       #: each_place search.c:18
        slli a5, a5, 0x5                #: each_place search.c:18
        sub a4, a5, a4                  #: each_place search.c:18
        lw a5, -24(s0)                  #: each_place search.c:18
        add a5, a4, a5                  #: each_place search.c:18
        addi a5, a5, 1                  #: each_place search.c:18
        sw a5, -20(s0)                  #: each_place search.c:18
each_place$2: lw a5, -24(s0)            #: each_place search.c:16
        addi a5, a5, 1                  #: each_place search.c:16
        sw a5, -24(s0)                  #: each_place search.c:16
each_place$3: lw a4, -24(s0)            #: each_place search.c:16
        lw a5, -28(s0)                  #: each_place search.c:16
        add a5, a4, a5                  #: each_place search.c:16
        lw a4, -32(s0)                  #: each_place search.c:16
        bgeu a4, a5, each_place$1       #: each_place search.c:16
        lw a5, -20(s0)                  #: each_place search.c:19
        mv a0, a5                       #: each_place search.c:20
        lw ra, 44(sp)                   #: each_place search.c:20
        lw s0, 40(sp)                   #: each_place search.c:20
        addi sp, sp, 48                 #: each_place search.c:20
        ret                             #: each_place search.c:20
horspool: addi sp, sp, -64              #: horspool search.c:23
        sw ra, 60(sp)                   #: horspool search.c:23
        sw s0, 56(sp)                   #: horspool search.c:23
        addi s0, sp, 64                 #: horspool search.c:23
        sw a0, -52(s0)                  #: horspool search.c:23
        lw a0, -52(s0)                  #: horspool search.c:25
        jal strlen                      #: horspool search.c:25
        sw a0, -32(s0)                  #: horspool search.c:25
        li a5, 341                      #: horspool search.c:25
        sw a5, -36(s0)                  #: horspool search.c:25
        sw zero, -20(s0)                #: horspool search.c:26
        lw a5, -32(s0)                  #: horspool search.c:27
        li a2, 128                      #: horspool search.c:27
        mv a1, a5                       #: horspool search.c:27
        lui a5, 0x80000                 #: horspool search.c:27
        addi a0, a5, 1568               #: horspool search.c:27
        jal memset                      #: horspool search.c:27
        sw zero, -24(s0)                #: horspool search.c:28
        j horspool$2                    #: horspool search.c:28
horspool$1: lw a5, -32(s0)              #: horspool search.c:29
        andi a4, a5, 255                #: horspool search.c:29
        lw a5, -24(s0)                  #: horspool search.c:29
        andi a5, a5, 255                #: horspool search.c:29
        sub a5, a4, a5                  #: horspool search.c:29
        andi a5, a5, 255                #: horspool search.c:29
        lw a3, -52(s0)                  #: horspool search.c:29
        lw a4, -24(s0)                  #: horspool search.c:29
        add a4, a3, a4                  #: horspool search.c:29
        lbu a4, 0(a4)                   #: horspool search.c:29
        mv a3, a4                       #: horspool search.c:29
        addi a5, a5, -1                 #: horspool search.c:29
        andi a4, a5, 255                #: horspool search.c:29
        lui a5, 0x80000                 #: horspool search.c:29
        addi a5, a5, 1568               #: horspool search.c:29
        add a5, a5, a3                  #: horspool search.c:29
        sb a4, 0(a5)                    #: horspool search.c:29
        lw a5, -24(s0)                  #: horspool search.c:28
        addi a5, a5, 1                  #: horspool search.c:28
        sw a5, -24(s0)                  #: horspool search.c:28
horspool$2: lw a5, -24(s0)              #: horspool search.c:28
        addi a5, a5, 1                  #: horspool search.c:28
        lw a4, -32(s0)                  #: horspool search.c:28
        bltu a5, a4, horspool$1         #: horspool search.c:28
        sw zero, -28(s0)                #: horspool search.c:30
        j horspool$5                    #: horspool search.c:30
horspool$3: lw a4, -28(s0)              #: horspool search.c:31
        lui a5, 0x80000                 #: horspool search.c:31
        addi a5, a5, 1120               #: horspool search.c:31
        add a5, a4, a5                  #: horspool search.c:31
        lw a2, -32(s0)                  #: horspool search.c:31
        lw a1, -52(s0)                  #: horspool search.c:31
        mv a0, a5                       #: horspool search.c:31
        jal memcmp                      #: horspool search.c:31
        mv a5, a0                       #: horspool search.c:31
        bnez a5, horspool$4             #: horspool search.c:31
        lw a4, -20(s0)                  #: horspool search.c:32
        mv a5, a4                       #: horspool search.c:32
        slli a5, a5, 0x5                #: horspool search.c:32
        sub a4, a5, a4                  #: horspool search.c:32
        lw a5, -28(s0)                  #: horspool search.c:32
        add a5, a4, a5                  #: horspool search.c:32
        addi a5, a5, 1                  #: horspool search.c:32
        sw a5, -20(s0)                  #: horspool search.c:32
horspool$4: lw a4, -28(s0)              #: horspool search.c:30
        lw a5, -32(s0)                  #: horspool search.c:30
        add a5, a4, a5                  #: horspool search.c:30
        addi a5, a5, -1                 #: horspool search.c:30
        lui a4, 0x80000                 #: horspool search.c:30
        addi a4, a4, 1120               #: horspool search.c:30
        add a5, a4, a5                  #: horspool search.c:30
        lbu a5, 0(a5)                   #: horspool search.c:30
        mv a4, a5                       #: horspool search.c:30
        lui a5, 0x80000                 #: horspool search.c:30
        addi a5, a5, 1568               #: horspool search.c:30
        add a5, a5, a4                  #: horspool search.c:30
        lbu a5, 0(a5)                   #: horspool search.c:30
        mv a4, a5                       #: horspool search.c:30
        lw a5, -28(s0)                  #: horspool search.c:30
        add a5, a5, a4                  #: horspool search.c:30
        sw a5, -28(s0)                  #: horspool search.c:30
horspool$5: lw a4, -28(s0)              #: horspool search.c:30
        lw a5, -32(s0)                  #: horspool search.c:30
        add a5, a4, a5                  #: horspool search.c:30
        lw a4, -36(s0)                  #: horspool search.c:30
        bgeu a4, a5, horspool$3         #: horspool search.c:30
        lw a5, -20(s0)                  #: horspool search.c:33
        mv a0, a5                       #: horspool search.c:34
        lw ra, 60(sp)                   #: horspool search.c:34
        lw s0, 56(sp)                   #: horspool search.c:34
        addi sp, sp, 64                 #: horspool search.c:34
        ret                             #: horspool search.c:34
main:   addi sp, sp, -32                #: main search.c:37
        sw ra, 28(sp)                   #: main search.c:37
        sw s0, 24(sp)                   #: main search.c:37
        addi s0, sp, 32                 #: main search.c:37
        sw zero, -20(s0)                #: main search.c:38
        sw zero, -24(s0)                #: main search.c:39
        j main$3                        #: main search.c:39
main$1: lui a5, 0x80000                 #: main search.c:40
        addi a4, a5, 1532               #: main search.c:40
        lw a5, -24(s0)                  #: main search.c:40
        slli a5, a5, 0x2                #: main search.c:40
        add a5, a4, a5                  #: main search.c:40
        lw a5, 0(a5)                    #: main search.c:40
        mv a0, a5                       #: main search.c:40
        jal each_place                  #: main search.c:40
        sw a0, -28(s0)                  #: main search.c:40
        lui a5, 0x80000                 #: main search.c:41
        addi a4, a5, 1532               #: main search.c:41
        lw a5, -24(s0)                  #: main search.c:41
        slli a5, a5, 0x2                #: main search.c:41
        add a5, a4, a5                  #: main search.c:41
        lw a5, 0(a5)                    #: main search.c:41
        mv a0, a5                       #: main search.c:41
        jal horspool                    #: main search.c:41
        mv a4, a0                       #: main search.c:41
        lw a5, -28(s0)                  #: main search.c:41
        beq a5, a4, main$2              #: main search.c:41
        li a5, -1                       #: main search.c:42
        j main$4                        #: main search.c:42
main$2: lw a4, -20(s0)                  #: main search.c:43
        mv a5, a4                       #: main search.c:43
        slli a5, a5, 0x3                #: main search.c:43
        sub a5, a5, a4                  #: main search.c:43
        lw a4, -28(s0)                  #: main search.c:43
        add a5, a4, a5                  #: main search.c:43
        sw a5, -20(s0)                  #: main search.c:43
        lw a5, -24(s0)                  #: main search.c:39
        addi a5, a5, 1                  #: main search.c:39
        sw a5, -24(s0)                  #: main search.c:39
main$3: lw a4, -24(s0)                  #: main search.c:39
        li a5, 5                        #: main search.c:39
        bgeu a5, a4, main$1             #: main search.c:39
        lw a5, -20(s0)                  #: main search.c:45
main$4: mv a0, a5                       #: main search.c:46
        lw ra, 28(sp)                   #: main search.c:46
        lw s0, 24(sp)                   #: main search.c:46
        addi sp, sp, 32                 #: main search.c:46
        ret                             #: main search.c:46
memset: addi sp, sp, -48                #: memset library.c:13
        sw s0, 44(sp)                   #: memset library.c:13
        addi s0, sp, 48                 #: memset library.c:13
        sw a0, -36(s0)                  #: memset library.c:13
        sw a1, -40(s0)                  #: memset library.c:13
        sw a2, -44(s0)                  #: memset library.c:13
        lw a5, -36(s0)                  #: memset library.c:14
        sw a5, -24(s0)                  #: memset library.c:14
        sw zero, -20(s0)                #: memset library.c:15
        j memset$2                      #: memset library.c:15
memset$1: lw a4, -24(s0)                #: memset library.c:16
        lw a5, -20(s0)                  #: memset library.c:16
        add a5, a4, a5                  #: memset library.c:16
        lw a4, -40(s0)                  #: memset library.c:16
        andi a4, a4, 255                #: memset library.c:16
        sb a4, 0(a5)                    #: memset library.c:16
        lw a5, -20(s0)                  #: memset library.c:15
        addi a5, a5, 1                  #: memset library.c:15
        sw a5, -20(s0)                  #: memset library.c:15
memset$2: lw a4, -20(s0)                #: memset library.c:15
        lw a5, -44(s0)                  #: memset library.c:15
        bltu a4, a5, memset$1           #: memset library.c:15
        lw a5, -36(s0)                  #: memset library.c:17
        mv a0, a5                       #: memset library.c:18
        lw s0, 44(sp)                   #: memset library.c:18
        addi sp, sp, 48                 #: memset library.c:18
        ret                             #: memset library.c:18
memcmp: addi sp, sp, -48                #: memcmp library.c:21
        sw s0, 44(sp)                   #: memcmp library.c:21
        addi s0, sp, 48                 #: memcmp library.c:21
        sw a0, -36(s0)                  #: memcmp library.c:21
        sw a1, -40(s0)                  #: memcmp library.c:21
        sw a2, -44(s0)                  #: memcmp library.c:21
        lw a5, -36(s0)                  #: memcmp library.c:22
        sw a5, -24(s0)                  #: memcmp library.c:22
        lw a5, -40(s0)                  #: memcmp library.c:23
        sw a5, -28(s0)                  #: memcmp library.c:23
        sw zero, -20(s0)                #: memcmp library.c:24
        j memcmp$3                      #: memcmp library.c:24
memcmp$1: lw a4, -24(s0)                #: memcmp library.c:25
        lw a5, -20(s0)                  #: memcmp library.c:25
        add a5, a4, a5                  #: memcmp library.c:25
        lbu a4, 0(a5)                   #: memcmp library.c:25
        lw a3, -28(s0)                  #: memcmp library.c:25
        lw a5, -20(s0)                  #: memcmp library.c:25
        add a5, a3, a5                  #: memcmp library.c:25
        lbu a5, 0(a5)                   #: memcmp library.c:25
        beq a4, a5, memcmp$2            #: memcmp library.c:25
        lw a4, -24(s0)                  #: memcmp library.c:26
        lw a5, -20(s0)                  #: memcmp library.c:26
        add a5, a4, a5                  #: memcmp library.c:26
        lbu a5, 0(a5)                   #: memcmp library.c:26
        mv a3, a5                       #: memcmp library.c:26
        lw a4, -28(s0)                  #: memcmp library.c:26
        lw a5, -20(s0)                  #: memcmp library.c:26
        add a5, a4, a5                  #: memcmp library.c:26
        lbu a5, 0(a5)                   #: memcmp library.c:26
        sub a5, a3, a5                  #: memcmp library.c:26
        j memcmp$4                      #: memcmp library.c:26
memcmp$2: lw a5, -20(s0)                #: memcmp library.c:24
        addi a5, a5, 1                  #: memcmp library.c:24
        sw a5, -20(s0)                  #: memcmp library.c:24
memcmp$3: lw a4, -20(s0)                #: memcmp library.c:24
        lw a5, -44(s0)                  #: memcmp library.c:24
        bltu a4, a5, memcmp$1           #: memcmp library.c:24
        li a5, 0                        #: memcmp library.c:27
memcmp$4: mv a0, a5                     #: memcmp library.c:28
        lw s0, 44(sp)                   #: memcmp library.c:28
        addi sp, sp, 48                 #: memcmp library.c:28
        ret                             #: memcmp library.c:28
strlen: addi sp, sp, -48                #: strlen library.c:31
        sw s0, 44(sp)                   #: strlen library.c:31
        addi s0, sp, 48                 #: strlen library.c:31
        sw a0, -36(s0)                  #: strlen library.c:31
        sw zero, -20(s0)                #: strlen library.c:32
        j strlen$2                      #: strlen library.c:33
strlen$1: lw a5, -20(s0)                #: strlen library.c:34
        addi a5, a5, 1                  #: strlen library.c:34
        sw a5, -20(s0)                  #: strlen library.c:34
strlen$2: lw a4, -36(s0)                #: strlen library.c:33
        lw a5, -20(s0)                  #: strlen library.c:33
        add a5, a4, a5                  #: strlen library.c:33
        lbu a5, 0(a5)                   #: strlen library.c:33
        bnez a5, strlen$1               #: strlen library.c:33
        lw a5, -20(s0)                  #: strlen library.c:35
        mv a0, a5                       #: strlen library.c:36
        lw s0, 44(sp)                   #: strlen library.c:36
        addi sp, sp, 48                 #: strlen library.c:36
        ret                             #: strlen library.c:36
        .data
text:
        .word 0x77207449
        .word 0x74207361
        .word 0x62206568
        .word 0x20747365
        .word 0x7420666f
        .word 0x73656d69
        .word 0x7469202c
        .word 0x73617720
        .word 0x65687420
        .word 0x726f7720
        .word 0x6f207473
        .word 0x69742066
        .word 0x2c73656d
        .word 0x20746920
        .word 0x20736177
        .word 0x20656874
        .word 0x20656761
        .word 0x7720666f
        .word 0x6f647369
        .word 0x69202c6d
        .word 0x61772074
        .word 0x68742073
        .word 0x67612065
        .word 0x666f2065
        .word 0x6f6f6620
        .word 0x6873696c
        .word 0x7373656e
        .word 0x7469202c
        .word 0x73617720
        .word 0x65687420
        .word 0x6f706520
        .word 0x6f206863
        .word 0x65622066
        .word 0x6665696c
        .word 0x7469202c
        .word 0x73617720
        .word 0x65687420
        .word 0x6f706520
        .word 0x6f206863
        .word 0x6e692066
        .word 0x64657263
        .word 0x74696c75
        .word 0x69202c79
        .word 0x61772074
        .word 0x68742073
        .word 0x65732065
        .word 0x6e6f7361
        .word 0x20666f20
        .word 0x6867694c
        .word 0x69202c74
        .word 0x61772074
        .word 0x68742073
        .word 0x65732065
        .word 0x6e6f7361
        .word 0x20666f20
        .word 0x6b726144
        .word 0x7373656e
        .word 0x7469202c
        .word 0x73617720
        .word 0x65687420
        .word 0x72707320
        .word 0x20676e69
        .word 0x6820666f
        .word 0x2c65706f
        .word 0x20746920
        .word 0x20736177
        .word 0x20656874
        .word 0x746e6977
        .word 0x6f207265
        .word 0x65642066
        .word 0x69617073
        .word 0x77202c72
        .word 0x61682065
        .word 0x76652064
        .word 0x74797265
        .word 0x676e6968
        .word 0x66656220
        .word 0x2065726f
        .word 0x202c7375
        .word 0x68206577
        .word 0x6e206461
        .word 0x6968746f
        .word 0x6220676e
        .word 0x726f6665
        .word 0x73752065
        .word 0x2e
        .word 0x656d6974
        .word 0x73
        .word 0x72636e69
        .word 0x6c756465
        .word 0x797469
        .word 0x20656874
        .word 0x746e6977
        .word 0x6f207265
        .word 0x66
        .word 0x68746f6e
        .word 0x20676e69
        .word 0x6f666562
        .word 0x75206572
        .word 0x2e73
        .word 0x6576656e
        .word 0x72
        .word 0x74
words:
        .word 0x800005b8
        .word 0x800005c0
        .word 0x800005cc
        .word 0x800005dc
        .word 0x800005f0
        .word 0x800005f8
        .zero 12
steps.0:
        .zero 128
