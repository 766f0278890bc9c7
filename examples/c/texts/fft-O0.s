# fft-O0.elf: 1584 bytes of text, 34 of data, 526 of zeros
_start: auipc sp, 0x10                  #: _start start.S:5
        mv sp, sp                       #: _start start.S:5
        jal main                        #: _start start.S:6
        ebreak                          #: _start start.S:7
sine:   addi sp, sp, -32                #: sine fft.c:14
        sw ra, 28(sp)                   #: sine fft.c:14
        sw s0, 24(sp)                   #: sine fft.c:14
        addi s0, sp, 32                 #: sine fft.c:14
        sw a0, -20(s0)                  #: sine fft.c:14
        lw a5, -20(s0)                  #: sine fft.c:15
        andi a5, a5, 63                 #: sine fft.c:15
        sw a5, -20(s0)                  #: sine fft.c:15
        lw a4, -20(s0)                  #: sine fft.c:16
        li a5, 31                       #: sine fft.c:16
        bge a5, a4, sine$1              #: sine fft.c:16
        lw a5, -20(s0)                  #: sine fft.c:17
        addi a5, a5, -32                #: sine fft.c:17
        mv a0, a5                       #: sine fft.c:17
        jal sine                        #: sine fft.c:17
        mv a5, a0                       #: sine fft.c:17
        neg a5, a5                      #: sine fft.c:17
        j sine$3                        #: sine fft.c:17
sine$1: lw a4, -20(s0)                  #: sine fft.c:18
        li a5, 16                       #: sine fft.c:18
        blt a5, a4, sine$2              #: sine fft.c:18
        lui a5, 0x80000                 #: sine fft.c:18
        addi a4, a5, 1584               #: sine fft.c:18
        lw a5, -20(s0)                  #: sine fft.c:18
        slli a5, a5, 0x1                #: sine fft.c:18
        add a5, a4, a5                  #: sine fft.c:18
        lh a5, 0(a5)                    #: sine fft.c:18
        j sine$3                        #: sine fft.c:18
sine$2: li a4, 32                       #: sine fft.c:18
        lw a5, -20(s0)                  #: sine fft.c:18
        sub a5, a4, a5                  #: sine fft.c:18
        lui a4, 0x80000                 #: sine fft.c:18
        addi a4, a4, 1584               #: sine fft.c:18
        slli a5, a5, 0x1                #: sine fft.c:18
        add a5, a4, a5                  #: sine fft.c:18
        lh a5, 0(a5)                    #: sine fft.c:18
sine$3: mv a0, a5                       #: sine fft.c:19
        lw ra, 28(sp)                   #: sine fft.c:19
        lw s0, 24(sp)                   #: sine fft.c:19
        addi sp, sp, 32                 #: sine fft.c:19
        ret                             #: sine fft.c:19
reverse_bits: addi sp, sp, -32          #: reverse_bits fft.c:22
        sw s0, 28(sp)                   #: reverse_bits fft.c:22
        addi s0, sp, 32                 #: reverse_bits fft.c:22
        sw zero, -20(s0)                #: reverse_bits fft.c:23
        j reverse_bits$5                #: reverse_bits fft.c:23
reverse_bits$1: sw zero, -24(s0)        #: reverse_bits fft.c:24
        sw zero, -28(s0)                #: reverse_bits fft.c:25
        j reverse_bits$3                #: reverse_bits fft.c:25
reverse_bits$2: lw a5, -28(s0)          #: reverse_bits fft.c:26
        lw a4, -20(s0)                  #: reverse_bits fft.c:26
        sra a5, a4, a5                  #: reverse_bits fft.c:26
        andi a4, a5, 1                  #: reverse_bits fft.c:26
        li a3, 5                        #: reverse_bits fft.c:26
        lw a5, -28(s0)                  #: reverse_bits fft.c:26
        sub a5, a3, a5                  #: reverse_bits fft.c:26
        sll a5, a4, a5                  #: reverse_bits fft.c:26
        lw a4, -24(s0)                  #: reverse_bits fft.c:26
        or a5, a4, a5                   #: reverse_bits fft.c:26
        sw a5, -24(s0)                  #: reverse_bits fft.c:26
        lw a5, -28(s0)                  #: reverse_bits fft.c:25
        addi a5, a5, 1                  #: reverse_bits fft.c:25
        sw a5, -28(s0)                  #: reverse_bits fft.c:25
reverse_bits$3: lw a4, -28(s0)          #: reverse_bits fft.c:25
        li a5, 5                        #: reverse_bits fft.c:25
        bge a5, a4, reverse_bits$2      #: reverse_bits fft.c:25
        lw a4, -20(s0)                  #: reverse_bits fft.c:27
        lw a5, -24(s0)                  #: reverse_bits fft.c:27
        bge a4, a5, reverse_bits$4      #: reverse_bits fft.c:27
        lui a5, 0x80000                 #: reverse_bits fft.c:28
        addi a4, a5, 1632               #: reverse_bits fft.c:28
        lw a5, -20(s0)                  #: reverse_bits fft.c:28
        slli a5, a5, 0x2                #: reverse_bits fft.c:28
        add a5, a4, a5                  #: reverse_bits fft.c:28
        lw a5, 0(a5)                    #: reverse_bits fft.c:28
        sw a5, -32(s0)                  #: reverse_bits fft.c:28
        lui a5, 0x80000                 #: reverse_bits fft.c:29
        addi a4, a5, 1632               #: reverse_bits fft.c:29
        lw a5, -24(s0)                  #: reverse_bits fft.c:29
        slli a5, a5, 0x2                #: reverse_bits fft.c:29
        add a5, a4, a5                  #: reverse_bits fft.c:29
        lw a4, 0(a5)                    #: reverse_bits fft.c:29
        lui a5, 0x80000                 #: reverse_bits fft.c:29
        addi a3, a5, 1632               #: reverse_bits fft.c:29
        lw a5, -20(s0)                  #: reverse_bits fft.c:29
        slli a5, a5, 0x2                #: reverse_bits fft.c:29
        add a5, a3, a5                  #: reverse_bits fft.c:29
        sw a4, 0(a5)                    #: reverse_bits fft.c:29
        lui a5, 0x80000                 #: reverse_bits fft.c:30
        addi a4, a5, 1632               #: reverse_bits fft.c:30
        lw a5, -24(s0)                  #: reverse_bits fft.c:30
        slli a5, a5, 0x2                #: reverse_bits fft.c:30
        add a5, a4, a5                  #: reverse_bits fft.c:30
        lw a4, -32(s0)                  #: reverse_bits fft.c:30
        sw a4, 0(a5)                    #: reverse_bits fft.c:30
        lui a5, 0x80000                 #: reverse_bits fft.c:31
        addi a4, a5, 1888               #: reverse_bits fft.c:31
        lw a5, -20(s0)                  #: reverse_bits fft.c:31
        slli a5, a5, 0x2                #: reverse_bits fft.c:31
        add a5, a4, a5                  #: reverse_bits fft.c:31
        lw a5, 0(a5)                    #: reverse_bits fft.c:31
        sw a5, -32(s0)                  #: reverse_bits fft.c:31
        lui a5, 0x80000                 #: reverse_bits fft.c:32
        addi a4, a5, 1888               #: reverse_bits fft.c:32
        lw a5, -24(s0)                  #: reverse_bits fft.c:32
        slli a5, a5, 0x2                #: reverse_bits fft.c:32
        add a5, a4, a5                  #: reverse_bits fft.c:32
        lw a4, 0(a5)                    #: reverse_bits fft.c:32
        lui a5, 0x80000                 #: reverse_bits fft.c:32
        addi a3, a5, 1888               #: reverse_bits fft.c:32
        lw a5, -20(s0)                  #: reverse_bits fft.c:32
        slli a5, a5, 0x2                #: reverse_bits fft.c:32
        add a5, a3, a5                  #: reverse_bits fft.c:32
        sw a4, 0(a5)                    #: reverse_bits fft.c:32
        lui a5, 0x80000                 #: reverse_bits fft.c:33
        addi a4, a5, 1888               #: reverse_bits fft.c:33
        lw a5, -24(s0)                  #: reverse_bits fft.c:33
        slli a5, a5, 0x2                #: reverse_bits fft.c:33
        add a5, a4, a5                  #: reverse_bits fft.c:33
        lw a4, -32(s0)                  #: reverse_bits fft.c:33
        sw a4, 0(a5)                    #: reverse_bits fft.c:33
reverse_bits$4: lw a5, -20(s0)          #: reverse_bits fft.c:23
        addi a5, a5, 1                  #: reverse_bits fft.c:23
        sw a5, -20(s0)                  #: reverse_bits fft.c:23
reverse_bits$5: lw a4, -20(s0)          #: reverse_bits fft.c:23
        li a5, 63                       #: reverse_bits fft.c:23
        bge a5, a4, reverse_bits$1      #: reverse_bits fft.c:23
        nop                             #: reverse_bits fft.c:36
        nop                             #: reverse_bits fft.c:36
        lw s0, 28(sp)                   #: reverse_bits fft.c:36
        addi sp, sp, 32                 #: reverse_bits fft.c:36
        ret                             #: reverse_bits fft.c:36
transform: addi sp, sp, -80             #: transform fft.c:39
        sw ra, 76(sp)                   #: transform fft.c:39
        sw s0, 72(sp)                   #: transform fft.c:39
        addi s0, sp, 80                 #: transform fft.c:39
        sw a0, -68(s0)                  #: transform fft.c:39
        jal reverse_bits                #: transform fft.c:40
        li a5, 1                        #: transform fft.c:41
        sw a5, -20(s0)                  #: transform fft.c:41
        j transform$6                   #: transform fft.c:41
transform$1: sw zero, -24(s0)           #: transform fft.c:42
        j transform$5                   #: transform fft.c:42
transform$2: li a4, 32                  #: transform fft.c:43
        lw a5, -20(s0)                  #: transform fft.c:43
        div a5, a4, a5                  #: transform fft.c:43
        lw a4, -24(s0)                  #: transform fft.c:43
        mul a5, a4, a5                  #: transform fft.c:43
        sw a5, -32(s0)                  #: transform fft.c:43
        lw a5, -32(s0)                  #: transform fft.c:44
        addi a5, a5, 16                 #: transform fft.c:44
        mv a0, a5                       #: transform fft.c:44
        jal sine                        #: transform fft.c:44
        sw a0, -36(s0)                  #: transform fft.c:44
        lw a0, -32(s0)                  #: transform fft.c:44
        jal sine                        #: transform fft.c:44
        mv a4, a0                       #: transform fft.c:44
        lw a5, -68(s0)                  #: transform fft.c:44
        mul a5, a5, a4                  #: transform fft.c:44
        sw a5, -40(s0)                  #: transform fft.c:44
        lw a5, -24(s0)                  #: transform fft.c:45
        sw a5, -28(s0)                  #: transform fft.c:45
        j transform$4                   #: transform fft.c:45
transform$3: lw a4, -28(s0)             #: transform fft.c:46
        lw a5, -20(s0)                  #: transform fft.c:46
        add a5, a4, a5                  #: transform fft.c:46
        sw a5, -44(s0)                  #: transform fft.c:46
        lui a5, 0x80000                 #: transform fft.c:47
        addi a4, a5, 1632               #: transform fft.c:47
        lw a5, -44(s0)                  #: transform fft.c:47
        slli a5, a5, 0x2                #: transform fft.c:47
        add a5, a4, a5                  #: transform fft.c:47
        lw a4, 0(a5)                    #: transform fft.c:47
        lw a5, -36(s0)                  #: transform fft.c:47
        mul a4, a4, a5                  #: transform fft.c:47
        lui a5, 0x80000                 #: transform fft.c:47
        addi a3, a5, 1888               #: transform fft.c:47
        lw a5, -44(s0)                  #: transform fft.c:47
        slli a5, a5, 0x2                #: transform fft.c:47
        add a5, a3, a5                  #: transform fft.c:47
        lw a3, 0(a5)                    #: transform fft.c:47
        lw a5, -40(s0)                  #: transform fft.c:47
        mul a5, a3, a5                  #: transform fft.c:47
        sub a5, a4, a5                  #: transform fft.c:47
        srai a5, a5, 0xe                #: transform fft.c:47
        sw a5, -48(s0)                  #: transform fft.c:47
        lui a5, 0x80000                 #: transform fft.c:47
        addi a4, a5, 1632               #: transform fft.c:47
        lw a5, -44(s0)                  #: transform fft.c:47
        slli a5, a5, 0x2                #: transform fft.c:47
        add a5, a4, a5                  #: transform fft.c:47
        lw a4, 0(a5)                    #: transform fft.c:47
        lw a5, -40(s0)                  #: transform fft.c:47
        mul a4, a4, a5                  #: transform fft.c:47
        lui a5, 0x80000                 #: transform fft.c:47
        addi a3, a5, 1888               #: transform fft.c:47
        lw a5, -44(s0)                  #: transform fft.c:47
        slli a5, a5, 0x2                #: transform fft.c:47
        add a5, a3, a5                  #: transform fft.c:47
        lw a3, 0(a5)                    #: transform fft.c:47
        lw a5, -36(s0)                  #: transform fft.c:47
        mul a5, a3, a5                  #: transform fft.c:47
        add a5, a4, a5                  #: transform fft.c:47
        srai a5, a5, 0xe                #: transform fft.c:47
        sw a5, -52(s0)                  #: transform fft.c:47
        lui a5, 0x80000                 #: transform fft.c:48
        addi a4, a5, 1632               #: transform fft.c:48
        lw a5, -28(s0)                  #: transform fft.c:48
        slli a5, a5, 0x2                #: transform fft.c:48
        add a5, a4, a5                  #: transform fft.c:48
        lw a4, 0(a5)                    #: transform fft.c:48
        lw a5, -48(s0)                  #: transform fft.c:48
        sub a4, a4, a5                  #: transform fft.c:48
        lui a5, 0x80000                 #: transform fft.c:48
        addi a3, a5, 1632               #: transform fft.c:48
        lw a5, -44(s0)                  #: transform fft.c:48
        slli a5, a5, 0x2                #: transform fft.c:48
        add a5, a3, a5                  #: transform fft.c:48
        sw a4, 0(a5)                    #: transform fft.c:48
        lui a5, 0x80000                 #: transform fft.c:49
        addi a4, a5, 1888               #: transform fft.c:49
        lw a5, -28(s0)                  #: transform fft.c:49
        slli a5, a5, 0x2                #: transform fft.c:49
        add a5, a4, a5                  #: transform fft.c:49
        lw a4, 0(a5)                    #: transform fft.c:49
        lw a5, -52(s0)                  #: transform fft.c:49
        sub a4, a4, a5                  #: transform fft.c:49
        lui a5, 0x80000                 #: transform fft.c:49
        addi a3, a5, 1888               #: transform fft.c:49
        lw a5, -44(s0)                  #: transform fft.c:49
        slli a5, a5, 0x2                #: transform fft.c:49
        add a5, a3, a5                  #: transform fft.c:49
        sw a4, 0(a5)                    #: transform fft.c:49
        lui a5, 0x80000                 #: transform fft.c:50
        addi a4, a5, 1632               #: transform fft.c:50
        lw a5, -28(s0)                  #: transform fft.c:50
        slli a5, a5, 0x2                #: transform fft.c:50
        add a5, a4, a5                  #: transform fft.c:50
        lw a4, 0(a5)                    #: transform fft.c:50
        lw a5, -48(s0)                  #: transform fft.c:50
        add a4, a4, a5                  #: transform fft.c:50
        lui a5, 0x80000                 #: transform fft.c:50
        addi a3, a5, 1632               #: transform fft.c:50
        lw a5, -28(s0)                  #: transform fft.c:50
        slli a5, a5, 0x2                #: transform fft.c:50
        add a5, a3, a5                  #: transform fft.c:50
        sw a4, 0(a5)                    #: transform fft.c:50
        lui a5, 0x80000                 #: transform fft.c:51
        addi a4, a5, 1888               #: transform fft.c:51
        lw a5, -28(s0)                  #: transform fft.c:51
        slli a5, a5, 0x2                #: transform fft.c:51
        add a5, a4, a5                  #: transform fft.c:51
        lw a4, 0(a5)                    #: transform fft.c:51
        lw a5, -52(s0)                  #: transform fft.c:51
        add a4, a4, a5                  #: transform fft.c:51
        lui a5, 0x80000                 #: transform fft.c:51
        addi a3, a5, 1888               #: transform fft.c:51
        lw a5, -28(s0)                  #: transform fft.c:51
        slli a5, a5, 0x2                #: transform fft.c:51
        add a5, a3, a5                  #: transform fft.c:51
        sw a4, 0(a5)                    #: transform fft.c:51
        lw a5, -20(s0)                  #: transform fft.c:45
        slli a5, a5, 0x1                #: transform fft.c:45
        lw a4, -28(s0)                  #: transform fft.c:45
        add a5, a4, a5                  #: transform fft.c:45
        sw a5, -28(s0)                  #: transform fft.c:45
transform$4: lw a4, -28(s0)             #: transform fft.c:45
        li a5, 63                       #: transform fft.c:45
        bge a5, a4, transform$3         #: transform fft.c:45
        lw a5, -24(s0)                  #: transform fft.c:42
        addi a5, a5, 1                  #: transform fft.c:42
        sw a5, -24(s0)                  #: transform fft.c:42
transform$5: lw a4, -24(s0)             #: transform fft.c:42
        lw a5, -20(s0)                  #: transform fft.c:42
        blt a4, a5, transform$2         #: transform fft.c:42
        lw a5, -20(s0)                  #: transform fft.c:41
        slli a5, a5, 0x1                #: transform fft.c:41
        sw a5, -20(s0)                  #: transform fft.c:41
transform$6: lw a4, -20(s0)             #: transform fft.c:41
        li a5, 63                       #: transform fft.c:41
        bge a5, a4, transform$1         #: transform fft.c:41
        nop                             #: transform fft.c:54
        nop                             #: transform fft.c:54
        lw ra, 76(sp)                   #: transform fft.c:54
        lw s0, 72(sp)                   #: transform fft.c:54
        addi sp, sp, 80                 #: transform fft.c:54
        ret                             #: transform fft.c:54
main:   addi sp, sp, -48                #: main fft.c:57
        sw ra, 44(sp)                   #: main fft.c:57
        sw s0, 40(sp)                   #: main fft.c:57
        addi s0, sp, 48                 #: main fft.c:57
        sw zero, -20(s0)                #: main fft.c:58
        sw zero, -24(s0)                #: main fft.c:59
        j main$2                        #: main fft.c:59
main$1: lw a4, -24(s0)                  #: main fft.c:60
        mv a5, a4                       #: main fft.c:60
        slli a5, a5, 0x3                #: main fft.c:60
        add a5, a5, a4                  #: main fft.c:60
        slli a5, a5, 0x2                #: main fft.c:60
        add a5, a5, a4                  #: main fft.c:60
        andi a5, a5, 255                #: main fft.c:60
        addi a4, a5, -128               #: main fft.c:60
        lui a5, 0x80000                 #: main fft.c:60
        addi a3, a5, 1632               #: main fft.c:60
        lw a5, -24(s0)                  #: main fft.c:60
        slli a5, a5, 0x2                #: main fft.c:60
        add a5, a3, a5                  #: main fft.c:60
        sw a4, 0(a5)                    #: main fft.c:60
        lw a5, -24(s0)                  #: main fft.c:59
        addi a5, a5, 1                  #: main fft.c:59
        sw a5, -24(s0)                  #: main fft.c:59
main$2: lw a4, -24(s0)                  #: main fft.c:59
        li a5, 63                       #: main fft.c:59
        bge a5, a4, main$1              #: main fft.c:59
        li a0, -1                       #: main fft.c:61
        jal transform                   #: main fft.c:61
        sw zero, -28(s0)                #: main fft.c:62
        j main$4                        #: main fft.c:62
main$3: lw a4, -20(s0)                  #: main fft.c:63
        mv a5, a4                       #: main fft.c:63
        slli a5, a5, 0x5                #: main fft.c:63
        sub a4, a5, a4                  #: main fft.c:63
        lui a5, 0x80000                 #: main fft.c:63
        addi a3, a5, 1632               #: main fft.c:63
        lw a5, -28(s0)                  #: main fft.c:63
        slli a5, a5, 0x2                #: main fft.c:63
        add a5, a3, a5                  #: main fft.c:63
        lw a5, 0(a5)                    #: main fft.c:63
        mv a3, a5                       #: main fft.c:63
        mv a5, a3                       #: main fft.c:63
        slli a5, a5, 0x1                #: main fft.c:63
        add a5, a5, a3                  #: main fft.c:63
        add a5, a4, a5                  #: main fft.c:63
        lui a4, 0x80000                 #: main fft.c:63
        addi a3, a4, 1888               #: main fft.c:63
        lw a4, -28(s0)                  #: main fft.c:63
        slli a4, a4, 0x2                #: main fft.c:63
        add a4, a3, a4                  #: main fft.c:63
        lw a4, 0(a4)                    #: main fft.c:63
        add a5, a5, a4                  #: main fft.c:63
        sw a5, -20(s0)                  #: main fft.c:63
        lw a5, -28(s0)                  #: main fft.c:62
        addi a5, a5, 1                  #: main fft.c:62
        sw a5, -28(s0)                  #: main fft.c:62
main$4: lw a4, -28(s0)                  #: main fft.c:62
        li a5, 63                       #: main fft.c:62
        bge a5, a4, main$3              #: main fft.c:62
        li a0, 1                        #: main fft.c:64
        jal transform                   #: main fft.c:64
        sw zero, -32(s0)                #: main fft.c:65
        j main$8                        #: main fft.c:65
main$5: lui a5, 0x80000                 #: main fft.c:66
        addi a4, a5, 1632               #: main fft.c:66
        lw a5, -32(s0)                  #: main fft.c:66
        slli a5, a5, 0x2                #: main fft.c:66
        add a5, a4, a5                  #: main fft.c:66
        lw a5, 0(a5)                    #: main fft.c:66
        srai a4, a5, 0x1f               #: main fft.c:66
        andi a4, a4, 63                 #: main fft.c:66
        add a5, a4, a5                  #: main fft.c:66
        srai a5, a5, 0x6                #: main fft.c:66
        mv a3, a5                       #: main fft.c:66
        lw a4, -32(s0)                  #: main fft.c:66
        mv a5, a4                       #: main fft.c:66
        slli a5, a5, 0x3                #: main fft.c:66
        add a5, a5, a4                  #: main fft.c:66
        slli a5, a5, 0x2                #: main fft.c:66
        add a5, a5, a4                  #: main fft.c:66
        andi a5, a5, 255                #: main fft.c:66
        addi a5, a5, -128               #: main fft.c:66
        sub a5, a3, a5                  #: main fft.c:66
        sw a5, -36(s0)                  #: main fft.c:66
        lw a4, -36(s0)                  #: main fft.c:67
        li a5, 2                        #: main fft.c:67
        blt a5, a4, main$6              #: main fft.c:67
        lw a4, -36(s0)                  #: main fft.c:67
        li a5, -2                       #: main fft.c:67
        bge a4, a5, main$7              #: main fft.c:67
main$6: li a5, -1                       #: main fft.c:68
        j main$9                        #: main fft.c:68
main$7: lw a5, -32(s0)                  #: main fft.c:65
        addi a5, a5, 1                  #: main fft.c:65
        sw a5, -32(s0)                  #: main fft.c:65
main$8: lw a4, -32(s0)                  #: main fft.c:65
        li a5, 63                       #: main fft.c:65
        bge a5, a4, main$5              #: main fft.c:65
        lw a5, -20(s0)                  #: main fft.c:70
main$9: mv a0, a5                       #: main fft.c:71
        lw ra, 44(sp)                   #: main fft.c:71
        lw s0, 40(sp)                   #: main fft.c:71
        addi sp, sp, 48                 #: main fft.c:71
        ret                             #: main fft.c:71
        .data
quarter:
        .word 0x6460000
        .word 0x12940c7c
        .word 0x1e2b187e
        .word 0x289a238e
        .word 0x31792d41
        .word 0x38713537
        .word 0x3d3f3b21
        .word 0x3fb13ec5
        .byte 0x0
        .byte 0x40
        .zero 14
real:
        .zero 256
imaginary:
        .zero 256
