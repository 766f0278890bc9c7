# sha256-O2.elf: 1180 bytes of text, 352 of data, 32 of zeros
_start: auipc sp, 0x10                  #: _start start.S:5
        mv sp, sp                       #: _start start.S:5
        jal main                        #: _start start.S:6
        ebreak                          #: _start start.S:7
digest: addi sp, sp, -496               #: digest sha256.c:48
        sw s0, 488(sp)                  #: digest sha256.c:48
        sw s1, 484(sp)                  #: digest sha256.c:48
        sw s2, 480(sp)                  #: digest sha256.c:48
        sw ra, 492(sp)                  #: digest sha256.c:48
        sw s3, 476(sp)                  #: digest sha256.c:48
        sw s4, 472(sp)                  #: digest sha256.c:48
        sw s5, 468(sp)                  #: digest sha256.c:48
        sw s6, 464(sp)                  #: digest sha256.c:48
        sw s7, 460(sp)                  #: digest sha256.c:48
        sw s8, 456(sp)                  #: digest sha256.c:48
        sw s9, 452(sp)                  #: digest sha256.c:48
        sw s10, 448(sp)                 #: digest sha256.c:48
        sw s11, 444(sp)                 #: digest sha256.c:48
        mv s1, a0                       #: digest sha256.c:48
        jal strlen                      #: digest sha256.c:53
        li a5, 55                       #: digest sha256.c:53
        mv s0, a0                       #: digest sha256.c:53
        li s2, 128                      #: digest sha256.c:53
        bltu a5, a0, digest$1           #: digest sha256.c:53
        li s2, 64                       #: digest sha256.c:53
digest$1: li a2, 128                    #: digest sha256.c:54
        li a1, 0                        #: digest sha256.c:54
        addi a0, sp, 48                 #: digest sha256.c:54
        jal memset                      #: digest sha256.c:54
        mv a2, s0                       #: digest sha256.c:55
        mv a1, s1                       #: digest sha256.c:55
        addi a0, sp, 48                 #: digest sha256.c:55
        jal memcpy                      #: digest sha256.c:55
        slli a5, s0, 0x3                #: digest sha256.c:57
        srli a4, a5, 0x8                #: digest sha256.c:57
        andi a5, a5, 255                #: digest sha256.c:57
        andi a4, a4, 255                #: digest sha256.c:57
        addi a3, s0, 416                #: digest sha256.c:56
        addi a2, sp, 16                 #: digest sha256.c:56
        slli a5, a5, 0x8                #: digest sha256.c:57
        or a5, a4, a5                   #: digest sha256.c:57
        add s0, a3, a2                  #: digest sha256.c:56
        addi a4, sp, 48                 #: digest sha256.c:57
        li a3, -128                     #: digest sha256.c:56
        lui s4, 0x80000                 #: digest sha256.c:59
        sb a3, -384(s0)                 #: digest sha256.c:56
        add a4, a4, s2                  #: digest sha256.c:57
        lui s1, 0x80000                 #: digest sha256.c:59
        addi a1, s4, 1248               #: digest sha256.c:59
        sh a5, -2(a4)                   #: digest sha256.c:57
        li a2, 32                       #: digest sha256.c:59
        addi a0, s1, 1536               #: digest sha256.c:59
        jal memcpy                      #: digest sha256.c:59
        lui a5, 0x80000                 #: digest sha256.c:60
        addi s4, s4, 1248               #: digest sha256.c:60
        addi a5, a5, 1280               #: digest sha256.c:60
        lui s7, 0x80000                 #: digest sha256.c:60
        addi s8, sp, 48                 #: digest sha256.c:60
        li s9, 0                        #: digest sha256.c:60
        addi s6, sp, 240                #: digest sha256.c:60
        addi s3, sp, 16                 #: digest sha256.c:60
        sw a5, 12(sp)                   #: digest sha256.c:60
        addi s7, s7, 1568               #: digest sha256.c:60
        addi s5, sp, 372                #: digest sha256.c:60
        addi s4, s4, 288                #: digest sha256.c:60
digest$2: addi s0, sp, 176              #: digest sha256.c:26
        mv a3, s0                       #: digest sha256.c:60
        mv a4, s8                       #: digest sha256.c:60
digest$3: lbu a5, 0(a4)                 #: digest sha256.c:27
        lbu a1, 1(a4)                   #: digest sha256.c:27
        lbu a0, 3(a4)                   #: digest sha256.c:27
        lbu a2, 2(a4)                   #: digest sha256.c:27
        slli a5, a5, 0x18               #: digest sha256.c:27
        slli a1, a1, 0x10               #: digest sha256.c:27
        or a5, a5, a1                   #: digest sha256.c:27
        or a5, a5, a0                   #: digest sha256.c:27
        slli a2, a2, 0x8                #: digest sha256.c:27
        or a5, a5, a2                   #: digest sha256.c:27
        sw a5, 0(a3)                    #: digest sha256.c:27
        addi a3, a3, 4                  #: digest sha256.c:26
        addi a4, a4, 4                  #: digest sha256.c:26
        bne s6, a3, digest$3            #: digest sha256.c:26
        lw t5, 212(sp)                  #: digest sha256.c:26
        lw t4, 216(sp)                  #: digest sha256.c:26
        lw t3, 220(sp)                  #: digest sha256.c:26
        lw t1, 224(sp)                  #: digest sha256.c:26
        lw a7, 228(sp)                  #: digest sha256.c:26
        lw a2, 232(sp)                  #: digest sha256.c:26
        lw a6, 236(sp)                  #: digest sha256.c:26
        lw a3, 176(sp)                  #: digest sha256.c:26
        addi a1, sp, 180                #: digest sha256.c:26
digest$4: mv t6, a3                     #: digest sha256.c:29
        lw a3, 0(a1)                    #: digest sha256.c:29
        srli t2, a2, 0x13               #: digest sha256.c:20
        slli a4, a2, 0xf                #: digest sha256.c:20
        srli ra, a2, 0x11               #: digest sha256.c:20
        slli a0, a2, 0xd                #: digest sha256.c:20
        srli a5, a3, 0x7                #: digest sha256.c:20
        slli s11, a3, 0x19              #: digest sha256.c:20
        slli t0, a3, 0xe                #: digest sha256.c:20
        srli s10, a3, 0x12              #: digest sha256.c:20
        or t0, t0, s10                  #: digest sha256.c:20
        or a0, a0, t2                   #: digest sha256.c:20
        or a5, a5, s11                  #: digest sha256.c:20
        or a4, a4, ra                   #: digest sha256.c:20
        srli t2, a2, 0xa                #: digest sha256.c:31
        xor a5, a5, t0                  #: digest sha256.c:30
        xor a4, a4, a0                  #: digest sha256.c:31
        srli t0, a3, 0x3                #: digest sha256.c:30
        xor a4, a4, t2                  #: digest sha256.c:31
        xor a5, a5, t0                  #: digest sha256.c:30
        add a5, a5, a4                  #: digest sha256.c:31
        add a5, a5, t6                  #: digest sha256.c:31
        mv a4, a6                       #: digest sha256.c:31
        add a6, a5, t5                  #: digest sha256.c:31
        sw a6, 60(a1)                   #: digest sha256.c:30
        addi a1, a1, 4                  #: digest sha256.c:28
        mv t5, t4                       #: digest sha256.c:28
        mv t4, t3                       #: digest sha256.c:28
        mv t3, t1                       #: digest sha256.c:28
        mv t1, a7                       #: digest sha256.c:28
        mv a7, a2                       #: digest sha256.c:28
        mv a2, a4                       #: digest sha256.c:28
        bne a1, s5, digest$4            #: digest sha256.c:28
        li a2, 32                       #: digest sha256.c:33
        addi a1, s1, 1536               #: digest sha256.c:33
        mv a0, s3                       #: digest sha256.c:33
        jal memcpy                      #: digest sha256.c:33
        lw a5, 32(sp)                   #: digest sha256.c:35
        lw t3, 16(sp)                   #: digest sha256.c:37
        lw a6, 12(sp)                   #: digest sha256.c:37
        mv t1, a5                       #: digest sha256.c:37
digest$5: lw a2, 0(a6)                  #: digest sha256.c:35
        lw t2, 0(s0)                    #: digest sha256.c:35
        srli t0, t1, 0x19               #: digest sha256.c:20
        slli a7, t1, 0x7                #: digest sha256.c:20
        or a7, a7, t0                   #: digest sha256.c:20
        add t0, a2, t2                  #: digest sha256.c:35
        lw a2, 44(sp)                   #: digest sha256.c:35
        slli a0, t1, 0x1a               #: digest sha256.c:20
        slli a5, t1, 0x15               #: digest sha256.c:20
        add a2, t0, a2                  #: digest sha256.c:35
        srli a4, t1, 0x6                #: digest sha256.c:20
        lw t0, 40(sp)                   #: digest sha256.c:35
        srli a3, t1, 0xb                #: digest sha256.c:20
        or a3, a3, a5                   #: digest sha256.c:20
        or a4, a4, a0                   #: digest sha256.c:20
        lw a1, 20(sp)                   #: digest sha256.c:37
        lw t4, 24(sp)                   #: digest sha256.c:37
        xor a4, a4, a3                  #: digest sha256.c:35
        not t2, t1                      #: digest sha256.c:35
        xor a4, a4, a7                  #: digest sha256.c:35
        and a7, t2, t0                  #: digest sha256.c:35
        lw t0, 36(sp)                   #: digest sha256.c:35
        slli t6, t3, 0x1e               #: digest sha256.c:20
        slli a0, t3, 0x13               #: digest sha256.c:20
        srli a5, t3, 0x2                #: digest sha256.c:20
        srli t5, t3, 0xd                #: digest sha256.c:20
        or a5, a5, t6                   #: digest sha256.c:20
        or t5, t5, a0                   #: digest sha256.c:20
        xor a3, a1, t4                  #: digest sha256.c:37
        slli a0, t3, 0xa                #: digest sha256.c:20
        srli t6, t3, 0x16               #: digest sha256.c:20
        and t1, t1, t0                  #: digest sha256.c:35
        xor a5, a5, t5                  #: digest sha256.c:37
        or a0, a0, t6                   #: digest sha256.c:20
        and a3, a3, t3                  #: digest sha256.c:37
        and a1, a1, t4                  #: digest sha256.c:37
        add a4, a4, a2                  #: digest sha256.c:35
        xor a3, a3, a1                  #: digest sha256.c:37
        xor a2, a7, t1                  #: digest sha256.c:35
        xor a5, a5, a0                  #: digest sha256.c:37
        add a4, a4, a2                  #: digest sha256.c:35
        add a5, a5, a3                  #: digest sha256.c:37
        mv a2, s3                       #: digest sha256.c:38
        addi a3, sp, 44                 #: digest sha256.c:38
digest$6: lw a1, -4(a3)                 #: digest sha256.c:39
        addi a3, a3, -4                 #: digest sha256.c:38
        sw a1, 4(a3)                    #: digest sha256.c:39
        bne s3, a3, digest$6            #: digest sha256.c:38
        lw t1, 32(sp)                   #: digest sha256.c:40
        add t3, a4, a5                  #: digest sha256.c:41
        sw t3, 16(sp)                   #: digest sha256.c:41
        add t1, a4, t1                  #: digest sha256.c:40
        sw t1, 32(sp)                   #: digest sha256.c:40
        addi a6, a6, 4                  #: digest sha256.c:34
        addi s0, s0, 4                  #: digest sha256.c:34
        bne a6, s4, digest$5            #: digest sha256.c:34
        lui a5, 0x80000                 #: digest sha256.c:34
        addi a5, a5, 1536               #: digest sha256.c:34
digest$7: lw a4, 0(a5)                  #: digest sha256.c:44
        lw a3, 0(a2)                    #: digest sha256.c:44
        addi a5, a5, 4                  #: digest sha256.c:43
        addi a2, a2, 4                  #: digest sha256.c:43
        add a4, a4, a3                  #: digest sha256.c:44
        sw a4, -4(a5)                   #: digest sha256.c:44
        bne a5, s7, digest$7            #: digest sha256.c:43
        addi a5, s9, 64                 #: digest sha256.c:60
        addi s8, s8, 64                 #: digest sha256.c:60
        li s9, 64                       #: digest sha256.c:60
        bltu a5, s2, digest$2           #: digest sha256.c:60
        lw ra, 492(sp)                  #: digest sha256.c:62
        lw s0, 488(sp)                  #: digest sha256.c:62
        lw s1, 484(sp)                  #: digest sha256.c:62
        lw s2, 480(sp)                  #: digest sha256.c:62
        lw s3, 476(sp)                  #: digest sha256.c:62
        lw s4, 472(sp)                  #: digest sha256.c:62
        lw s5, 468(sp)                  #: digest sha256.c:62
        lw s6, 464(sp)                  #: digest sha256.c:62
        lw s7, 460(sp)                  #: digest sha256.c:62
        lw s8, 456(sp)                  #: digest sha256.c:62
        lw s9, 452(sp)                  #: digest sha256.c:62
        lw s10, 448(sp)                 #: digest sha256.c:62
        lw s11, 444(sp)                 #: digest sha256.c:62
        addi sp, sp, 496                #: digest sha256.c:62
        ret                             #: digest sha256.c:62
main:   lui a0, 0x80000                 #: main sha256.c:67
        addi sp, sp, -32                #: main sha256.c:65
        addi a0, a0, 1184               #: main sha256.c:67
        sw s3, 12(sp)                   #: main sha256.c:65
        sw ra, 28(sp)                   #: main sha256.c:65
        sw s0, 24(sp)                   #: main sha256.c:65
        sw s1, 20(sp)                   #: main sha256.c:65
        sw s2, 16(sp)                   #: main sha256.c:65
        jal digest                      #: main sha256.c:67
        lui a5, 0x80000                 #: main sha256.c:68
        addi s3, a5, 1536               #: main sha256.c:68
        lw a3, 0(s3)                    #: main sha256.c:68
        lui a4, 0xba781                 #: main sha256.c:68
        addi a4, a4, 1727               #: main sha256.c:68
        bne a3, a4, main$4              #: main sha256.c:68
        lw a3, 28(s3)                   #: main sha256.c:68
        lui a4, 0xf2001                 #: main sha256.c:68
        addi a4, a4, 1453               #: main sha256.c:68
        bne a3, a4, main$4              #: main sha256.c:68
        addi s1, a5, 1536               #: main sha256.c:68
        addi s2, s3, 32                 #: main sha256.c:68
        addi a5, a5, 1536               #: main sha256.c:68
        li s0, 0                        #: main sha256.c:66
main$1: lw a4, 0(a5)                    #: main sha256.c:71
        addi a5, a5, 4                  #: main sha256.c:70
        xor s0, s0, a4                  #: main sha256.c:71
        bne a5, s2, main$1              #: main sha256.c:70
        lui a0, 0x80000                 #: main sha256.c:72
        addi a0, a0, 1188               #: main sha256.c:72
        jal digest                      #: main sha256.c:72
        lw a4, 0(s3)                    #: main sha256.c:73
        lui a5, 0x248d7                 #: main sha256.c:73
        addi a5, a5, -1439              #: main sha256.c:73
        bne a4, a5, main$4              #: main sha256.c:73
        lw a4, 28(s3)                   #: main sha256.c:73
        lui a5, 0x19db0                 #: main sha256.c:73
        addi a5, a5, 1729               #: main sha256.c:73
        bne a4, a5, main$4              #: main sha256.c:73
main$2: lw a5, 0(s1)                    #: main sha256.c:76
        addi s1, s1, 4                  #: main sha256.c:75
        xor s0, s0, a5                  #: main sha256.c:76
        bne s1, s2, main$2              #: main sha256.c:75
        mv a0, s0                       #: main sha256.c:77
main$3: lw ra, 28(sp)                   #: main sha256.c:78
        lw s0, 24(sp)                   #: main sha256.c:78
        lw s1, 20(sp)                   #: main sha256.c:78
        lw s2, 16(sp)                   #: main sha256.c:78
        lw s3, 12(sp)                   #: main sha256.c:78
        addi sp, sp, 32                 #: main sha256.c:78
        ret                             #: main sha256.c:78
main$4: li a0, -1                       #: main sha256.c:69
        j main$3                        #: main sha256.c:69
memcpy: beqz a2, memcpy$2               #: memcpy library.c:7
        mv a5, a0                       #: memcpy library.c:7
        add a2, a1, a2                  #: memcpy library.c:7
memcpy$1: lbu a4, 0(a1)                 #: memcpy library.c:8
        addi a1, a1, 1                  #: memcpy library.c:7
        addi a5, a5, 1                  #: memcpy library.c:7
        sb a4, -1(a5)                   #: memcpy library.c:8
        bne a1, a2, memcpy$1            #: memcpy library.c:7
memcpy$2: ret                           #: memcpy library.c:10
memset: andi a1, a1, 255                #: memset library.c:16
        mv a5, a0                       #: memset library.c:16
        add a4, a2, a0                  #: memset library.c:16
        beqz a2, memset$2               #: memset library.c:15
memset$1: sb a1, 0(a5)                  #: memset library.c:16
        addi a5, a5, 1                  #: memset library.c:15
        bne a5, a4, memset$1            #: memset library.c:15
memset$2: ret                           #: memset library.c:18
strlen: lbu a5, 0(a0)                   #: strlen library.c:33
        mv a4, a0                       #: strlen library.c:31
        li a0, 0                        #: strlen library.c:32
        beqz a5, strlen$2               #: strlen library.c:33
strlen$1: addi a0, a0, 1                #: strlen library.c:34
        add a5, a4, a0                  #: strlen library.c:33
        lbu a5, 0(a5)                   #: strlen library.c:33
        bnez a5, strlen$1               #: strlen library.c:33
        ret                             #: strlen library.c:33
strlen$2: ret                           #: strlen library.c:36
        .data
        .word 0x636261
        .word 0x64636261
        .word 0x65646362
        .word 0x66656463
        .word 0x67666564
        .word 0x68676665
        .word 0x69686766
        .word 0x6a696867
        .word 0x6b6a6968
        .word 0x6c6b6a69
        .word 0x6d6c6b6a
        .word 0x6e6d6c6b
        .word 0x6f6e6d6c
        .word 0x706f6e6d
        .word 0x71706f6e
        .word 0x0
start.0:
        .word 0x6a09e667
        .word 0xbb67ae85
        .word 0x3c6ef372
        .word 0xa54ff53a
        .word 0x510e527f
        .word 0x9b05688c
        .word 0x1f83d9ab
        .word 0x5be0cd19
constants:
        .word 0x428a2f98
        .word 0x71374491
        .word 0xb5c0fbcf
        .word 0xe9b5dba5
        .word 0x3956c25b
        .word 0x59f111f1
        .word 0x923f82a4
        .word 0xab1c5ed5
        .word 0xd807aa98
        .word 0x12835b01
        .word 0x243185be
        .word 0x550c7dc3
        .word 0x72be5d74
        .word 0x80deb1fe
        .word 0x9bdc06a7
        .word 0xc19bf174
        .word 0xe49b69c1
        .word 0xefbe4786
        .word 0xfc19dc6
        .word 0x240ca1cc
        .word 0x2de92c6f
        .word 0x4a7484aa
        .word 0x5cb0a9dc
        .word 0x76f988da
        .word 0x983e5152
        .word 0xa831c66d
        .word 0xb00327c8
        .word 0xbf597fc7
        .word 0xc6e00bf3
        .word 0xd5a79147
        .word 0x6ca6351
        .word 0x14292967
        .word 0x27b70a85
        .word 0x2e1b2138
        .word 0x4d2c6dfc
        .word 0x53380d13
        .word 0x650a7354
        .word 0x766a0abb
        .word 0x81c2c92e
        .word 0x92722c85
        .word 0xa2bfe8a1
        .word 0xa81a664b
        .word 0xc24b8b70
        .word 0xc76c51a3
        .word 0xd192e819
        .word 0xd6990624
        .word 0xf40e3585
        .word 0x106aa070
        .word 0x19a4c116
        .word 0x1e376c08
        .word 0x2748774c
        .word 0x34b0bcb5
        .word 0x391c0cb3
        .word 0x4ed8aa4a
        .word 0x5b9cca4f
        .word 0x682e6ff3
        .word 0x748f82ee
        .word 0x78a5636f
        .word 0x84c87814
        .word 0x8cc70208
        .word 0x90befffa
        .word 0xa4506ceb
        .word 0xbef9a3f7
        .word 0xc67178f2
state:
        .zero 32
