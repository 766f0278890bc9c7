# sha256-O0.elf: 2048 bytes of text, 352 of data, 32 of zeros
_start: auipc sp, 0x10                  #: _start start.S:5
        mv sp, sp                       #: _start start.S:5
        jal main                        #: _start start.S:6
        ebreak                          #: _start start.S:7
rotate: addi sp, sp, -32                #: rotate sha256.c:19
        sw s0, 28(sp)                   #: rotate sha256.c:19
        addi s0, sp, 32                 #: rotate sha256.c:19
        sw a0, -20(s0)                  #: rotate sha256.c:19
        sw a1, -24(s0)                  #: rotate sha256.c:19
        lw a5, -20(s0)                  #: rotate sha256.c:20
        lw a4, -24(s0)                  #: rotate sha256.c:20
        srl a4, a5, a4                  #: rotate sha256.c:20
        lw a3, -24(s0)                  #: rotate sha256.c:20
        neg a3, a3                      #: rotate sha256.c:20
        andi a3, a3, 31                 #: rotate sha256.c:20
        sll a5, a5, a3                  #: rotate sha256.c:20
        or a5, a5, a4                   #: rotate sha256.c:20
        mv a0, a5                       #: rotate sha256.c:21
        lw s0, 28(sp)                   #: rotate sha256.c:21
        addi sp, sp, 32                 #: rotate sha256.c:21
        ret                             #: rotate sha256.c:21
digest_block: addi sp, sp, -368         #: digest_block sha256.c:24
        sw ra, 364(sp)                  #: digest_block sha256.c:24
        sw s0, 360(sp)                  #: digest_block sha256.c:24
        sw s1, 356(sp)                  #: digest_block sha256.c:24
        sw s2, 352(sp)                  #: digest_block sha256.c:24
        addi s0, sp, 368                #: digest_block sha256.c:24
        sw a0, -356(s0)                 #: digest_block sha256.c:24
        sw zero, -20(s0)                #: digest_block sha256.c:26
        j digest_block$2                #: digest_block sha256.c:26
digest_block$1: lw a5, -20(s0)          #: digest_block sha256.c:27
        slli a5, a5, 0x2                #: digest_block sha256.c:27
        mv a4, a5                       #: digest_block sha256.c:27
        lw a5, -356(s0)                 #: digest_block sha256.c:27
        add a5, a5, a4                  #: digest_block sha256.c:27
        lbu a5, 0(a5)                   #: digest_block sha256.c:27
        slli a4, a5, 0x18               #: digest_block sha256.c:27
        lw a5, -20(s0)                  #: digest_block sha256.c:27
        slli a5, a5, 0x2                #: digest_block sha256.c:27
        addi a5, a5, 1                  #: digest_block sha256.c:27
        lw a3, -356(s0)                 #: digest_block sha256.c:27
        add a5, a3, a5                  #: digest_block sha256.c:27
        lbu a5, 0(a5)                   #: digest_block sha256.c:27
        slli a5, a5, 0x10               #: digest_block sha256.c:27
        or a4, a4, a5                   #: digest_block sha256.c:27
        lw a5, -20(s0)                  #: digest_block sha256.c:27
        slli a5, a5, 0x2                #: digest_block sha256.c:27
        addi a5, a5, 2                  #: digest_block sha256.c:27
        lw a3, -356(s0)                 #: digest_block sha256.c:27
        add a5, a3, a5                  #: digest_block sha256.c:27
        lbu a5, 0(a5)                   #: digest_block sha256.c:27
        slli a5, a5, 0x8                #: digest_block sha256.c:27
        or a5, a4, a5                   #: digest_block sha256.c:27
        lw a4, -20(s0)                  #: digest_block sha256.c:27
        slli a4, a4, 0x2                #: digest_block sha256.c:27
        addi a4, a4, 3                  #: digest_block sha256.c:27
        lw a3, -356(s0)                 #: digest_block sha256.c:27
        add a4, a3, a4                  #: digest_block sha256.c:27
        lbu a4, 0(a4)                   #: digest_block sha256.c:27
        or a4, a5, a4                   #: digest_block sha256.c:27
        lw a5, -20(s0)                  #: digest_block sha256.c:27
        slli a5, a5, 0x2                #: digest_block sha256.c:27
        addi a5, a5, -16                #: digest_block sha256.c:27
        add a5, a5, s0                  #: digest_block sha256.c:27
        sw a4, -292(a5)                 #: digest_block sha256.c:27
        lw a5, -20(s0)                  #: digest_block sha256.c:26
        addi a5, a5, 1                  #: digest_block sha256.c:26
        sw a5, -20(s0)                  #: digest_block sha256.c:26
digest_block$2: lw a4, -20(s0)          #: digest_block sha256.c:26
        li a5, 15                       #: digest_block sha256.c:26
        bge a5, a4, digest_block$1      #: digest_block sha256.c:26
        li a5, 16                       #: digest_block sha256.c:28
        sw a5, -24(s0)                  #: digest_block sha256.c:28
        j digest_block$4                #: digest_block sha256.c:28
digest_block$3: lw a5, -24(s0)          #: digest_block sha256.c:29
        addi a5, a5, -15                #: digest_block sha256.c:29
        slli a5, a5, 0x2                #: digest_block sha256.c:29
        addi a5, a5, -16                #: digest_block sha256.c:29
        add a5, a5, s0                  #: digest_block sha256.c:29
        lw a5, -292(a5)                 #: digest_block sha256.c:29
        sw a5, -48(s0)                  #: digest_block sha256.c:29
        lw a5, -24(s0)                  #: digest_block sha256.c:29
        addi a5, a5, -2                 #: digest_block sha256.c:29
        slli a5, a5, 0x2                #: digest_block sha256.c:29
        addi a5, a5, -16                #: digest_block sha256.c:29
        add a5, a5, s0                  #: digest_block sha256.c:29
        lw a5, -292(a5)                 #: digest_block sha256.c:29
        sw a5, -52(s0)                  #: digest_block sha256.c:29
        lw a5, -24(s0)                  #: digest_block sha256.c:30
        addi a5, a5, -16                #: digest_block sha256.c:30
        slli a5, a5, 0x2                #: digest_block sha256.c:30
        addi a5, a5, -16                #: digest_block sha256.c:30
        add a5, a5, s0                  #: digest_block sha256.c:30
        lw s1, -292(a5)                 #: digest_block sha256.c:30
        li a1, 7                        #: digest_block sha256.c:30
        lw a0, -48(s0)                  #: digest_block sha256.c:30
        jal rotate                      #: digest_block sha256.c:30
        mv s2, a0                       #: digest_block sha256.c:30
        li a1, 18                       #: digest_block sha256.c:30
        lw a0, -48(s0)                  #: digest_block sha256.c:30
        jal rotate                      #: digest_block sha256.c:30
        mv a5, a0                       #: digest_block sha256.c:30
        xor a4, s2, a5                  #: digest_block sha256.c:30
        lw a5, -48(s0)                  #: digest_block sha256.c:30
        srli a5, a5, 0x3                #: digest_block sha256.c:30
        xor a5, a4, a5                  #: digest_block sha256.c:30
        add a4, s1, a5                  #: digest_block sha256.c:30
        lw a5, -24(s0)                  #: digest_block sha256.c:30
        addi a5, a5, -7                 #: digest_block sha256.c:30
        slli a5, a5, 0x2                #: digest_block sha256.c:30
        addi a5, a5, -16                #: digest_block sha256.c:30
        add a5, a5, s0                  #: digest_block sha256.c:30
        lw a5, -292(a5)                 #: digest_block sha256.c:30
        add s1, a4, a5                  #: digest_block sha256.c:30
        li a1, 17                       #: digest_block sha256.c:31
        lw a0, -52(s0)                  #: digest_block sha256.c:31
        jal rotate                      #: digest_block sha256.c:31
        mv s2, a0                       #: digest_block sha256.c:31
        li a1, 19                       #: digest_block sha256.c:31
        lw a0, -52(s0)                  #: digest_block sha256.c:31
        jal rotate                      #: digest_block sha256.c:31
        mv a5, a0                       #: digest_block sha256.c:31
        xor a4, s2, a5                  #: digest_block sha256.c:31
        lw a5, -52(s0)                  #: digest_block sha256.c:31
        srli a5, a5, 0xa                #: digest_block sha256.c:31
        xor a5, a4, a5                  #: digest_block sha256.c:31
        add a4, s1, a5                  #: digest_block sha256.c:31
        lw a5, -24(s0)                  #: digest_block sha256.c:30
        slli a5, a5, 0x2                #: digest_block sha256.c:30
        addi a5, a5, -16                #: digest_block sha256.c:30
        add a5, a5, s0                  #: digest_block sha256.c:30
        sw a4, -292(a5)                 #: digest_block sha256.c:30
        lw a5, -24(s0)                  #: digest_block sha256.c:28
        addi a5, a5, 1                  #: digest_block sha256.c:28
        sw a5, -24(s0)                  #: digest_block sha256.c:28
digest_block$4: lw a4, -24(s0)          #: digest_block sha256.c:28
        li a5, 63                       #: digest_block sha256.c:28
        bge a5, a4, digest_block$3      #: digest_block sha256.c:28
        addi a4, s0, -340               #: digest_block sha256.c:33
        li a2, 32                       #: digest_block sha256.c:33
        lui a5, 0x80001                 #: digest_block sha256.c:33
        addi a1, a5, -1696              #: digest_block sha256.c:33
        mv a0, a4                       #: digest_block sha256.c:33
        jal memcpy                      #: digest_block sha256.c:33
        sw zero, -28(s0)                #: digest_block sha256.c:34
        j digest_block$8                #: digest_block sha256.c:34
digest_block$5: lw s1, -312(s0)         #: digest_block sha256.c:35
        lw a5, -324(s0)                 #: digest_block sha256.c:35
        li a1, 6                        #: digest_block sha256.c:35
        mv a0, a5                       #: digest_block sha256.c:35
        jal rotate                      #: digest_block sha256.c:35
        mv s2, a0                       #: digest_block sha256.c:35
        lw a5, -324(s0)                 #: digest_block sha256.c:35
        li a1, 11                       #: digest_block sha256.c:35
        mv a0, a5                       #: digest_block sha256.c:35
        jal rotate                      #: digest_block sha256.c:35
        mv a5, a0                       #: digest_block sha256.c:35
        xor s2, s2, a5                  #: digest_block sha256.c:35
        lw a5, -324(s0)                 #: digest_block sha256.c:35
        li a1, 25                       #: digest_block sha256.c:35
        mv a0, a5                       #: digest_block sha256.c:35
        jal rotate                      #: digest_block sha256.c:35
        mv a5, a0                       #: digest_block sha256.c:35
        xor a5, s2, a5                  #: digest_block sha256.c:35
        add a4, s1, a5                  #: digest_block sha256.c:35
        lw a3, -324(s0)                 #: digest_block sha256.c:35
        lw a5, -320(s0)                 #: digest_block sha256.c:35
        and a3, a3, a5                  #: digest_block sha256.c:35
        lw a5, -324(s0)                 #: digest_block sha256.c:35
        not a2, a5                      #: digest_block sha256.c:35
        lw a5, -316(s0)                 #: digest_block sha256.c:35
        and a5, a2, a5                  #: digest_block sha256.c:35
        xor a5, a3, a5                  #: digest_block sha256.c:35
        add a4, a4, a5                  #: digest_block sha256.c:35
        lui a5, 0x80001                 #: digest_block sha256.c:36
        addi a3, a5, -2048              #: digest_block sha256.c:36
        lw a5, -28(s0)                  #: digest_block sha256.c:36
        slli a5, a5, 0x2                #: digest_block sha256.c:36
        add a5, a3, a5                  #: digest_block sha256.c:36
        lw a5, 0(a5)                    #: digest_block sha256.c:36
        add a4, a4, a5                  #: digest_block sha256.c:36
        lw a5, -28(s0)                  #: digest_block sha256.c:36
        slli a5, a5, 0x2                #: digest_block sha256.c:36
        addi a5, a5, -16                #: digest_block sha256.c:36
        add a5, a5, s0                  #: digest_block sha256.c:36
        lw a5, -292(a5)                 #: digest_block sha256.c:36
        add a5, a4, a5                  #: digest_block sha256.c:35
        sw a5, -40(s0)                  #: digest_block sha256.c:35
        lw a5, -340(s0)                 #: digest_block sha256.c:37
        li a1, 2                        #: digest_block sha256.c:37
        mv a0, a5                       #: digest_block sha256.c:37
        jal rotate                      #: digest_block sha256.c:37
        mv s1, a0                       #: digest_block sha256.c:37
        lw a5, -340(s0)                 #: digest_block sha256.c:37
        li a1, 13                       #: digest_block sha256.c:37
        mv a0, a5                       #: digest_block sha256.c:37
        jal rotate                      #: digest_block sha256.c:37
        mv a5, a0                       #: digest_block sha256.c:37
        xor s1, s1, a5                  #: digest_block sha256.c:37
        lw a5, -340(s0)                 #: digest_block sha256.c:37
        li a1, 22                       #: digest_block sha256.c:37
        mv a0, a5                       #: digest_block sha256.c:37
        jal rotate                      #: digest_block sha256.c:37
        mv a5, a0                       #: digest_block sha256.c:37
        xor a4, s1, a5                  #: digest_block sha256.c:37
        lw a3, -340(s0)                 #: digest_block sha256.c:37
        lw a2, -336(s0)                 #: digest_block sha256.c:37
        lw a5, -332(s0)                 #: digest_block sha256.c:37
        xor a5, a2, a5                  #: digest_block sha256.c:37
        and a3, a3, a5                  #: digest_block sha256.c:37
        lw a2, -336(s0)                 #: digest_block sha256.c:37
        lw a5, -332(s0)                 #: digest_block sha256.c:37
        and a5, a2, a5                  #: digest_block sha256.c:37
        xor a5, a3, a5                  #: digest_block sha256.c:37
        add a5, a4, a5                  #: digest_block sha256.c:37
        sw a5, -44(s0)                  #: digest_block sha256.c:37
        li a5, 7                        #: digest_block sha256.c:38
        sw a5, -32(s0)                  #: digest_block sha256.c:38
        j digest_block$7                #: digest_block sha256.c:38
digest_block$6: lw a5, -32(s0)          #: digest_block sha256.c:39
        addi a5, a5, -1                 #: digest_block sha256.c:39
        slli a5, a5, 0x2                #: digest_block sha256.c:39
        addi a5, a5, -16                #: digest_block sha256.c:39
        add a5, a5, s0                  #: digest_block sha256.c:39
        lw a4, -324(a5)                 #: digest_block sha256.c:39
        lw a5, -32(s0)                  #: digest_block sha256.c:39
        slli a5, a5, 0x2                #: digest_block sha256.c:39
        addi a5, a5, -16                #: digest_block sha256.c:39
        add a5, a5, s0                  #: digest_block sha256.c:39
        sw a4, -324(a5)                 #: digest_block sha256.c:39
        lw a5, -32(s0)                  #: digest_block sha256.c:38
        addi a5, a5, -1                 #: digest_block sha256.c:38
        sw a5, -32(s0)                  #: digest_block sha256.c:38
digest_block$7: lw a5, -32(s0)          #: digest_block sha256.c:38
        bgtz a5, digest_block$6         #: digest_block sha256.c:38
        lw a4, -324(s0)                 #: digest_block sha256.c:40
        lw a5, -40(s0)                  #: digest_block sha256.c:40
        add a5, a4, a5                  #: digest_block sha256.c:40
        sw a5, -324(s0)                 #: digest_block sha256.c:40
        lw a4, -40(s0)                  #: digest_block sha256.c:41
        lw a5, -44(s0)                  #: digest_block sha256.c:41
        add a5, a4, a5                  #: digest_block sha256.c:41
        sw a5, -340(s0)                 #: digest_block sha256.c:41
        lw a5, -28(s0)                  #: digest_block sha256.c:34
        addi a5, a5, 1                  #: digest_block sha256.c:34
        sw a5, -28(s0)                  #: digest_block sha256.c:34
digest_block$8: lw a4, -28(s0)          #: digest_block sha256.c:34
        li a5, 63                       #: digest_block sha256.c:34
        bge a5, a4, digest_block$5      #: digest_block sha256.c:34
        sw zero, -36(s0)                #: digest_block sha256.c:43
        j digest_block$10               #: digest_block sha256.c:43
digest_block$9: lui a5, 0x80001         #: digest_block sha256.c:44
        addi a4, a5, -1696              #: digest_block sha256.c:44
        lw a5, -36(s0)                  #: digest_block sha256.c:44
        slli a5, a5, 0x2                #: digest_block sha256.c:44
        add a5, a4, a5                  #: digest_block sha256.c:44
        lw a4, 0(a5)                    #: digest_block sha256.c:44
        lw a5, -36(s0)                  #: digest_block sha256.c:44
        slli a5, a5, 0x2                #: digest_block sha256.c:44
        addi a5, a5, -16                #: digest_block sha256.c:44
        add a5, a5, s0                  #: digest_block sha256.c:44
        lw a5, -324(a5)                 #: digest_block sha256.c:44
        add a4, a4, a5                  #: digest_block sha256.c:44
        lui a5, 0x80001                 #: digest_block sha256.c:44
        addi a3, a5, -1696              #: digest_block sha256.c:44
        lw a5, -36(s0)                  #: digest_block sha256.c:44
        slli a5, a5, 0x2                #: digest_block sha256.c:44
        add a5, a3, a5                  #: digest_block sha256.c:44
        sw a4, 0(a5)                    #: digest_block sha256.c:44
        lw a5, -36(s0)                  #: digest_block sha256.c:43
        addi a5, a5, 1                  #: digest_block sha256.c:43
        sw a5, -36(s0)                  #: digest_block sha256.c:43
digest_block$10: lw a4, -36(s0)         #: digest_block sha256.c:43
        li a5, 7                        #: digest_block sha256.c:43
        bge a5, a4, digest_block$9      #: digest_block sha256.c:43
        nop                             #: digest_block sha256.c:45
        nop                             #: digest_block sha256.c:45
        lw ra, 364(sp)                  #: digest_block sha256.c:45
        lw s0, 360(sp)                  #: digest_block sha256.c:45
        lw s1, 356(sp)                  #: digest_block sha256.c:45
        lw s2, 352(sp)                  #: digest_block sha256.c:45
        addi sp, sp, 368                #: digest_block sha256.c:45
        ret                             #: digest_block sha256.c:45
digest: addi sp, sp, -176               #: digest sha256.c:48
        sw ra, 172(sp)                  #: digest sha256.c:48
        sw s0, 168(sp)                  #: digest sha256.c:48
        addi s0, sp, 176                #: digest sha256.c:48
        sw a0, -164(s0)                 #: digest sha256.c:48
        lw a0, -164(s0)                 #: digest sha256.c:53
        jal strlen                      #: digest sha256.c:53
        sw a0, -24(s0)                  #: digest sha256.c:53
        lw a4, -24(s0)                  #: digest sha256.c:53
        li a5, 55                       #: digest sha256.c:53
        bltu a5, a4, digest$1           #: digest sha256.c:53
        li a5, 64                       #: digest sha256.c:53
        j digest$2                      #: digest sha256.c:53
digest$1: li a5, 128                    #: digest sha256.c:53
digest$2: sw a5, -28(s0)                #: digest sha256.c:53
        addi a5, s0, -156               #: digest sha256.c:54
        li a2, 128                      #: digest sha256.c:54
        li a1, 0                        #: digest sha256.c:54
        mv a0, a5                       #: digest sha256.c:54
        jal memset                      #: digest sha256.c:54
        addi a5, s0, -156               #: digest sha256.c:55
        lw a2, -24(s0)                  #: digest sha256.c:55
        lw a1, -164(s0)                 #: digest sha256.c:55
        mv a0, a5                       #: digest sha256.c:55
        jal memcpy                      #: digest sha256.c:55
        lw a5, -24(s0)                  #: digest sha256.c:56
        addi a5, a5, -16                #: digest sha256.c:56
        add a5, a5, s0                  #: digest sha256.c:56
        li a4, -128                     #: digest sha256.c:56
        sb a4, -140(a5)                 #: digest sha256.c:56
        lw a5, -24(s0)                  #: digest sha256.c:57
        slli a5, a5, 0x3                #: digest sha256.c:57
        srli a4, a5, 0x8                #: digest sha256.c:57
        lw a5, -28(s0)                  #: digest sha256.c:57
        addi a5, a5, -2                 #: digest sha256.c:57
        andi a4, a4, 255                #: digest sha256.c:57
        addi a5, a5, -16                #: digest sha256.c:57
        add a5, a5, s0                  #: digest sha256.c:57
        sb a4, -140(a5)                 #: digest sha256.c:57
        lw a5, -24(s0)                  #: digest sha256.c:58
        andi a4, a5, 255                #: digest sha256.c:58
        lw a5, -28(s0)                  #: digest sha256.c:58
        addi a5, a5, -1                 #: digest sha256.c:58
        slli a4, a4, 0x3                #: digest sha256.c:58
        andi a4, a4, 255                #: digest sha256.c:58
        addi a5, a5, -16                #: digest sha256.c:58
        add a5, a5, s0                  #: digest sha256.c:58
        sb a4, -140(a5)                 #: digest sha256.c:58
        li a2, 32                       #: digest sha256.c:59
        lui a5, 0x80001                 #: digest sha256.c:59
        addi a1, a5, -1728              #: digest sha256.c:59
        lui a5, 0x80001                 #: digest sha256.c:59
        addi a0, a5, -1696              #: digest sha256.c:59
        jal memcpy                      #: digest sha256.c:59
        sw zero, -20(s0)                #: digest sha256.c:60
        j digest$4                      #: digest sha256.c:60
digest$3: addi a4, s0, -156             #: digest sha256.c:61
        lw a5, -20(s0)                  #: digest sha256.c:61
        add a5, a4, a5                  #: digest sha256.c:61
        mv a0, a5                       #: digest sha256.c:61
        jal digest_block                #: digest sha256.c:61
        lw a5, -20(s0)                  #: digest sha256.c:60
        addi a5, a5, 64                 #: digest sha256.c:60
        sw a5, -20(s0)                  #: digest sha256.c:60
digest$4: lw a4, -20(s0)                #: digest sha256.c:60
        lw a5, -28(s0)                  #: digest sha256.c:60
        bltu a4, a5, digest$3           #: digest sha256.c:60
        nop                             #: digest sha256.c:62
        nop                             #: digest sha256.c:62
        lw ra, 172(sp)                  #: digest sha256.c:62
        lw s0, 168(sp)                  #: digest sha256.c:62
        addi sp, sp, 176                #: digest sha256.c:62
        ret                             #: digest sha256.c:62
main:   addi sp, sp, -32                #: main sha256.c:65
        sw ra, 28(sp)                   #: main sha256.c:65
        sw s0, 24(sp)                   #: main sha256.c:65
        addi s0, sp, 32                 #: main sha256.c:65
        sw zero, -20(s0)                #: main sha256.c:66
        lui a5, 0x80001                 #: main sha256.c:67
        addi a0, a5, -1792              #: main sha256.c:67
        jal digest                      #: main sha256.c:67
        lui a5, 0x80001                 #: main sha256.c:68
        addi a5, a5, -1696              #: main sha256.c:68
        lw a4, 0(a5)                    #: main sha256.c:68
        lui a5, 0xba781                 #: main sha256.c:68
        addi a5, a5, 1727               #: main sha256.c:68
        bne a4, a5, main$1              #: main sha256.c:68
        lui a5, 0x80001                 #: main sha256.c:68
        addi a5, a5, -1696              #: main sha256.c:68
        lw a4, 28(a5)                   #: main sha256.c:68
        lui a5, 0xf2001                 #: main sha256.c:68
        addi a5, a5, 1453               #: main sha256.c:68
        beq a4, a5, main$2              #: main sha256.c:68
main$1: li a5, -1                       #: main sha256.c:69
        j main$9                        #: main sha256.c:69
main$2: sw zero, -24(s0)                #: main sha256.c:70
        j main$4                        #: main sha256.c:70
main$3: lui a5, 0x80001                 #: main sha256.c:71
        addi a4, a5, -1696              #: main sha256.c:71
        lw a5, -24(s0)                  #: main sha256.c:71
        slli a5, a5, 0x2                #: main sha256.c:71
        add a5, a4, a5                  #: main sha256.c:71
        lw a5, 0(a5)                    #: main sha256.c:71
        lw a4, -20(s0)                  #: main sha256.c:71
        xor a5, a4, a5                  #: main sha256.c:71
        sw a5, -20(s0)                  #: main sha256.c:71
        lw a5, -24(s0)                  #: main sha256.c:70
        addi a5, a5, 1                  #: main sha256.c:70
        sw a5, -24(s0)                  #: main sha256.c:70
main$4: lw a4, -24(s0)                  #: main sha256.c:70
        li a5, 7                        #: main sha256.c:70
        bge a5, a4, main$3              #: main sha256.c:70
        lui a5, 0x80001                 #: main sha256.c:72
        addi a0, a5, -1788              #: main sha256.c:72
        jal digest                      #: main sha256.c:72
        lui a5, 0x80001                 #: main sha256.c:73
        addi a5, a5, -1696              #: main sha256.c:73
        lw a4, 0(a5)                    #: main sha256.c:73
        lui a5, 0x248d7                 #: main sha256.c:73
        addi a5, a5, -1439              #: main sha256.c:73
        bne a4, a5, main$5              #: main sha256.c:73
        lui a5, 0x80001                 #: main sha256.c:73
        addi a5, a5, -1696              #: main sha256.c:73
        lw a4, 28(a5)                   #: main sha256.c:73
        lui a5, 0x19db0                 #: main sha256.c:73
        addi a5, a5, 1729               #: main sha256.c:73
        beq a4, a5, main$6              #: main sha256.c:73
main$5: li a5, -1                       #: main sha256.c:74
        j main$9                        #: main sha256.c:74
main$6: sw zero, -28(s0)                #: main sha256.c:75
        j main$8                        #: main sha256.c:75
main$7: lui a5, 0x80001                 #: main sha256.c:76
        addi a4, a5, -1696              #: main sha256.c:76
        lw a5, -28(s0)                  #: main sha256.c:76
        slli a5, a5, 0x2                #: main sha256.c:76
        add a5, a4, a5                  #: main sha256.c:76
        lw a5, 0(a5)                    #: main sha256.c:76
        lw a4, -20(s0)                  #: main sha256.c:76
        xor a5, a4, a5                  #: main sha256.c:76
        sw a5, -20(s0)                  #: main sha256.c:76
        lw a5, -28(s0)                  #: main sha256.c:75
        addi a5, a5, 1                  #: main sha256.c:75
        sw a5, -28(s0)                  #: main sha256.c:75
main$8: lw a4, -28(s0)                  #: main sha256.c:75
        li a5, 7                        #: main sha256.c:75
        bge a5, a4, main$7              #: main sha256.c:75
        lw a5, -20(s0)                  #: main sha256.c:77
main$9: mv a0, a5                       #: main sha256.c:78
        lw ra, 28(sp)                   #: main sha256.c:78
        lw s0, 24(sp)                   #: main sha256.c:78
        addi sp, sp, 32                 #: main sha256.c:78
        ret                             #: main sha256.c:78
memcpy: addi sp, sp, -48                #: memcpy library.c:4
        sw s0, 44(sp)                   #: memcpy library.c:4
        addi s0, sp, 48                 #: memcpy library.c:4
        sw a0, -36(s0)                  #: memcpy library.c:4
        sw a1, -40(s0)                  #: memcpy library.c:4
        sw a2, -44(s0)                  #: memcpy library.c:4
        lw a5, -36(s0)                  #: memcpy library.c:5
        sw a5, -24(s0)                  #: memcpy library.c:5
        lw a5, -40(s0)                  #: memcpy library.c:6
        sw a5, -28(s0)                  #: memcpy library.c:6
        sw zero, -20(s0)                #: memcpy library.c:7
        j memcpy$2                      #: memcpy library.c:7
memcpy$1: lw a4, -28(s0)                #: memcpy library.c:8
        lw a5, -20(s0)                  #: memcpy library.c:8
        add a4, a4, a5                  #: memcpy library.c:8
        lw a3, -24(s0)                  #: memcpy library.c:8
        lw a5, -20(s0)                  #: memcpy library.c:8
        add a5, a3, a5                  #: memcpy library.c:8
        lbu a4, 0(a4)                   #: memcpy library.c:8
        sb a4, 0(a5)                    #: memcpy library.c:8
        lw a5, -20(s0)                  #: memcpy library.c:7
        addi a5, a5, 1                  #: memcpy library.c:7
        sw a5, -20(s0)                  #: memcpy library.c:7
memcpy$2: lw a4, -20(s0)                #: memcpy library.c:7
        lw a5, -44(s0)                  #: memcpy library.c:7
        bltu a4, a5, memcpy$1           #: memcpy library.c:7
        lw a5, -36(s0)                  #: memcpy library.c:9
        mv a0, a5                       #: memcpy library.c:10
        lw s0, 44(sp)                   #: memcpy library.c:10
        addi sp, sp, 48                 #: memcpy library.c:10
        ret                             #: memcpy library.c:10
memset: addi sp, sp, -48                #: memset library.c:13
        sw s0, 44(sp)                   #: memset library.c:13
        addi s0, sp, 48                 #: memset library.c:13
        sw a0, -36(s0)                  #: memset library.c:13
        sw a1, -40(s0)                  #: memset library.c:13
        sw a2, -44(s0)                  #: memset library.c:13
        lw a5, -36(s0)                  #: memset library.c:14
        sw a5, -24(s0)                  #: memset library.c:14
        sw zero, -20(s0)                #: memset library.c:15
        j memset$2                      #: memset library.c:15
memset$1: lw a4, -24(s0)                #: memset library.c:16
        lw a5, -20(s0)                  #: memset library.c:16
        add a5, a4, a5                  #: memset library.c:16
        lw a4, -40(s0)                  #: memset library.c:16
        andi a4, a4, 255                #: memset library.c:16
        sb a4, 0(a5)                    #: memset library.c:16
        lw a5, -20(s0)                  #: memset library.c:15
        addi a5, a5, 1                  #: memset library.c:15
        sw a5, -20(s0)                  #: memset library.c:15
memset$2: lw a4, -20(s0)                #: memset library.c:15
        lw a5, -44(s0)                  #: memset library.c:15
        bltu a4, a5, memset$1           #: memset library.c:15
        lw a5, -36(s0)                  #: memset library.c:17
        mv a0, a5                       #: memset library.c:18
        lw s0, 44(sp)                   #: memset library.c:18
        addi sp, sp, 48                 #: memset library.c:18
        ret                             #: memset library.c:18
strlen: addi sp, sp, -48                #: strlen library.c:31
        sw s0, 44(sp)                   #: strlen library.c:31
        addi s0, sp, 48                 #: strlen library.c:31
        sw a0, -36(s0)                  #: strlen library.c:31
        sw zero, -20(s0)                #: strlen library.c:32
        j strlen$2                      #: strlen library.c:33
strlen$1: lw a5, -20(s0)                #: strlen library.c:34
        addi a5, a5, 1                  #: strlen library.c:34
        sw a5, -20(s0)                  #: strlen library.c:34
strlen$2: lw a4, -36(s0)                #: strlen library.c:33
        lw a5, -20(s0)                  #: strlen library.c:33
        add a5, a4, a5                  #: strlen library.c:33
        lbu a5, 0(a5)                   #: strlen library.c:33
        bnez a5, strlen$1               #: strlen library.c:33
        lw a5, -20(s0)                  #: strlen library.c:35
        mv a0, a5                       #: strlen library.c:36
        lw s0, 44(sp)                   #: strlen library.c:36
        addi sp, sp, 48                 #: strlen library.c:36
        ret                             #: strlen library.c:36
        .data
constants:
        .word 0x428a2f98
        .word 0x71374491
        .word 0xb5c0fbcf
        .word 0xe9b5dba5
        .word 0x3956c25b
        .word 0x59f111f1
        .word 0x923f82a4
        .word 0xab1c5ed5
        .word 0xd807aa98
        .word 0x12835b01
        .word 0x243185be
        .word 0x550c7dc3
        .word 0x72be5d74
        .word 0x80deb1fe
        .word 0x9bdc06a7
        .word 0xc19bf174
        .word 0xe49b69c1
        .word 0xefbe4786
        .word 0xfc19dc6
        .word 0x240ca1cc
        .word 0x2de92c6f
        .word 0x4a7484aa
        .word 0x5cb0a9dc
        .word 0x76f988da
        .word 0x983e5152
        .word 0xa831c66d
        .word 0xb00327c8
        .word 0xbf597fc7
        .word 0xc6e00bf3
        .word 0xd5a79147
        .word 0x6ca6351
        .word 0x14292967
        .word 0x27b70a85
        .word 0x2e1b2138
        .word 0x4d2c6dfc
        .word 0x53380d13
        .word 0x650a7354
        .word 0x766a0abb
        .word 0x81c2c92e
        .word 0x92722c85
        .word 0xa2bfe8a1
        .word 0xa81a664b
        .word 0xc24b8b70
        .word 0xc76c51a3
        .word 0xd192e819
        .word 0xd6990624
        .word 0xf40e3585
        .word 0x106aa070
        .word 0x19a4c116
        .word 0x1e376c08
        .word 0x2748774c
        .word 0x34b0bcb5
        .word 0x391c0cb3
        .word 0x4ed8aa4a
        .word 0x5b9cca4f
        .word 0x682e6ff3
        .word 0x748f82ee
        .word 0x78a5636f
        .word 0x84c87814
        .word 0x8cc70208
        .word 0x90befffa
        .word 0xa4506ceb
        .word 0xbef9a3f7
        .word 0xc67178f2
        .word 0x636261
        .word 0x64636261
        .word 0x65646362
        .word 0x66656463
        .word 0x67666564
        .word 0x68676665
        .word 0x69686766
        .word 0x6a696867
        .word 0x6b6a6968
        .word 0x6c6b6a69
        .word 0x6d6c6b6a
        .word 0x6e6d6c6b
        .word 0x6f6e6d6c
        .word 0x706f6e6d
        .word 0x71706f6e
        .word 0x0
start.0:
        .word 0x6a09e667
        .word 0xbb67ae85
        .word 0x3c6ef372
        .word 0xa54ff53a
        .word 0x510e527f
        .word 0x9b05688c
        .word 0x1f83d9ab
        .word 0x5be0cd19
state:
        .zero 32
