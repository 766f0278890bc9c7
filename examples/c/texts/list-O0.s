# list-O0.elf: 848 bytes of text, 0 of data, 2048 of zeros
_start: auipc sp, 0x10                  #: _start start.S:5
        mv sp, sp                       #: _start start.S:5
        jal main                        #: _start start.S:6
        ebreak                          #: _start start.S:7
build:  addi sp, sp, -32                #: build list.c:14
        sw s0, 28(sp)                   #: build list.c:14
        addi s0, sp, 32                 #: build list.c:14
        sw zero, -20(s0)                #: build list.c:15
        sw zero, -24(s0)                #: build list.c:16
        j build$2                       #: build list.c:16
build$1: lw a4, -24(s0)                 #: build list.c:17
        li a5, 83                       #: build list.c:17
        mul a5, a4, a5                  #: build list.c:17
        andi a5, a5, 255                #: build list.c:17
        slli a4, a5, 0x3                #: build list.c:17
        lui a5, 0x80000                 #: build list.c:17
        addi a5, a5, 848                #: build list.c:17
        add a5, a4, a5                  #: build list.c:17
        sw a5, -28(s0)                  #: build list.c:17
        lw a4, -24(s0)                  #: build list.c:18
        lui a5, 0x9e378                 #: build list.c:18
        addi a5, a5, -1615              #: build list.c:18
        mul a5, a4, a5                  #: build list.c:18
        srli a4, a5, 0x8                #: build list.c:18
        lw a5, -28(s0)                  #: build list.c:18
        sw a4, 4(a5)                    #: build list.c:18
        lw a5, -28(s0)                  #: build list.c:19
        lw a4, -20(s0)                  #: build list.c:19
        sw a4, 0(a5)                    #: build list.c:19
        lw a5, -28(s0)                  #: build list.c:20
        sw a5, -20(s0)                  #: build list.c:20
        lw a5, -24(s0)                  #: build list.c:16
        addi a5, a5, 1                  #: build list.c:16
        sw a5, -24(s0)                  #: build list.c:16
build$2: lw a4, -24(s0)                 #: build list.c:16
        li a5, 255                      #: build list.c:16
        bgeu a5, a4, build$1            #: build list.c:16
        lw a5, -20(s0)                  #: build list.c:22
        mv a0, a5                       #: build list.c:23
        lw s0, 28(sp)                   #: build list.c:23
        addi sp, sp, 32                 #: build list.c:23
        ret                             #: build list.c:23
reverse: addi sp, sp, -48               #: reverse list.c:26
        sw s0, 44(sp)                   #: reverse list.c:26
        addi s0, sp, 48                 #: reverse list.c:26
        sw a0, -36(s0)                  #: reverse list.c:26
        sw zero, -20(s0)                #: reverse list.c:27
        j reverse$2                     #: reverse list.c:28
reverse$1: lw a5, -36(s0)               #: reverse list.c:29
        lw a5, 0(a5)                    #: reverse list.c:29
        sw a5, -24(s0)                  #: reverse list.c:29
        lw a5, -36(s0)                  #: reverse list.c:30
        lw a4, -20(s0)                  #: reverse list.c:30
        sw a4, 0(a5)                    #: reverse list.c:30
        lw a5, -36(s0)                  #: reverse list.c:31
        sw a5, -20(s0)                  #: reverse list.c:31
        lw a5, -24(s0)                  #: reverse list.c:32
        sw a5, -36(s0)                  #: reverse list.c:32
reverse$2: lw a5, -36(s0)               #: reverse list.c:28
        bnez a5, reverse$1              #: reverse list.c:28
        lw a5, -20(s0)                  #: reverse list.c:34
        mv a0, a5                       #: reverse list.c:35
        lw s0, 44(sp)                   #: reverse list.c:35
        addi sp, sp, 48                 #: reverse list.c:35
        ret                             #: reverse list.c:35
merge:  addi sp, sp, -48                #: merge list.c:38
        sw s0, 44(sp)                   #: merge list.c:38
        addi s0, sp, 48                 #: merge list.c:38
        sw a0, -36(s0)                  #: merge list.c:38
        sw a1, -40(s0)                  #: merge list.c:38
        sw zero, -28(s0)                #: merge list.c:39
        addi a5, s0, -28                #: merge list.c:39
        sw a5, -20(s0)                  #: merge list.c:39
        j merge$4                       #: merge list.c:40
merge$1: lw a5, -36(s0)                 #: merge list.c:41
        lw a4, 4(a5)                    #: merge list.c:41
        lw a5, -40(s0)                  #: merge list.c:41
        lw a5, 4(a5)                    #: merge list.c:41
        bltu a5, a4, merge$2            #: merge list.c:41
        addi a5, s0, -36                #: merge list.c:41
        j merge$3                       #: merge list.c:41
merge$2: addi a5, s0, -40               #: merge list.c:41
merge$3: sw a5, -24(s0)                 #: merge list.c:41
        lw a5, -24(s0)                  #: merge list.c:42
        lw a4, 0(a5)                    #: merge list.c:42
        lw a5, -20(s0)                  #: merge list.c:42
        sw a4, 0(a5)                    #: merge list.c:42
        lw a5, -24(s0)                  #: merge list.c:43
        lw a5, 0(a5)                    #: merge list.c:43
        sw a5, -20(s0)                  #: merge list.c:43
        lw a5, -24(s0)                  #: merge list.c:44
        lw a5, 0(a5)                    #: merge list.c:44
        lw a4, 0(a5)                    #: merge list.c:44
        lw a5, -24(s0)                  #: merge list.c:44
        sw a4, 0(a5)                    #: merge list.c:44
merge$4: lw a5, -36(s0)                 #: merge list.c:40
        beqz a5, merge$5                #: merge list.c:40
        lw a5, -40(s0)                  #: merge list.c:40
        bnez a5, merge$1                #: merge list.c:40
merge$5: lw a5, -36(s0)                 #: merge list.c:46
        beqz a5, merge$6                #: merge list.c:46
        lw a5, -36(s0)                  #: merge list.c:46
        j merge$7                       #: merge list.c:46
merge$6: lw a5, -40(s0)                 #: merge list.c:46
merge$7: lw a4, -20(s0)                 #: merge list.c:46
        sw a5, 0(a4)                    #: merge list.c:46
        lw a5, -28(s0)                  #: merge list.c:47
        mv a0, a5                       #: merge list.c:48
        lw s0, 44(sp)                   #: merge list.c:48
        addi sp, sp, 48                 #: merge list.c:48
        ret                             #: merge list.c:48
sort:   addi sp, sp, -48                #: sort list.c:51
        sw ra, 44(sp)                   #: sort list.c:51
        sw s0, 40(sp)                   #: sort list.c:51
        sw s1, 36(sp)                   #: sort list.c:51
        addi s0, sp, 48                 #: sort list.c:51
        sw a0, -36(s0)                  #: sort list.c:51
        lw a5, -36(s0)                  #: sort list.c:52
        beqz a5, sort$1                 #: sort list.c:52
        lw a5, -36(s0)                  #: sort list.c:52
        lw a5, 0(a5)                    #: sort list.c:52
        bnez a5, sort$2                 #: sort list.c:52
sort$1: lw a5, -36(s0)                  #: sort list.c:53
        j sort$6                        #: sort list.c:53
sort$2: lw a5, -36(s0)                  #: sort list.c:54
        sw a5, -20(s0)                  #: sort list.c:54
        lw a5, -36(s0)                  #: sort list.c:54
        lw a5, 0(a5)                    #: sort list.c:54
        sw a5, -24(s0)                  #: sort list.c:54
        j sort$4                        #: sort list.c:55
sort$3: lw a5, -20(s0)                  #: sort list.c:56
        lw a5, 0(a5)                    #: sort list.c:56
        sw a5, -20(s0)                  #: sort list.c:56
        lw a5, -24(s0)                  #: sort list.c:57
        lw a5, 0(a5)                    #: sort list.c:57
        lw a5, 0(a5)                    #: sort list.c:57
        sw a5, -24(s0)                  #: sort list.c:57
sort$4: lw a5, -24(s0)                  #: sort list.c:55
        beqz a5, sort$5                 #: sort list.c:55
        lw a5, -24(s0)                  #: sort list.c:55
        lw a5, 0(a5)                    #: sort list.c:55
        bnez a5, sort$3                 #: sort list.c:55
sort$5: lw a5, -20(s0)                  #: sort list.c:59
        lw a5, 0(a5)                    #: sort list.c:59
        sw a5, -28(s0)                  #: sort list.c:59
        lw a5, -20(s0)                  #: sort list.c:60
        sw zero, 0(a5)                  #: sort list.c:60
        lw a0, -36(s0)                  #: sort list.c:61
        jal sort                        #: sort list.c:61
        mv s1, a0                       #: sort list.c:61
        lw a0, -28(s0)                  #: sort list.c:61
        jal sort                        #: sort list.c:61
        mv a5, a0                       #: sort list.c:61
        mv a1, a5                       #: sort list.c:61
        mv a0, s1                       #: sort list.c:61
        jal merge                       #: sort list.c:61
        mv a5, a0                       #: sort list.c:61
sort$6: mv a0, a5                       #: sort list.c:62
        lw ra, 44(sp)                   #: sort list.c:62
        lw s0, 40(sp)                   #: sort list.c:62
        lw s1, 36(sp)                   #: sort list.c:62
        addi sp, sp, 48                 #: sort list.c:62
        ret                             #: sort list.c:62
walk:   addi sp, sp, -48                #: walk list.c:65
        sw s0, 44(sp)                   #: walk list.c:65
        addi s0, sp, 48                 #: walk list.c:65
        sw a0, -36(s0)                  #: walk list.c:65
        sw zero, -20(s0)                #: walk list.c:66
        j walk$2                        #: walk list.c:67
walk$1: lw a4, -20(s0)                  #: walk list.c:68
        mv a5, a4                       #: walk list.c:68
        slli a5, a5, 0x5                #: walk list.c:68
        add a4, a5, a4                  #: walk list.c:68
        lw a5, -36(s0)                  #: walk list.c:68
        lw a5, 4(a5)                    #: walk list.c:68
        add a5, a4, a5                  #: walk list.c:68
        sw a5, -20(s0)                  #: walk list.c:68
        lw a5, -36(s0)                  #: walk list.c:67
        lw a5, 0(a5)                    #: walk list.c:67
        sw a5, -36(s0)                  #: walk list.c:67
walk$2: lw a5, -36(s0)                  #: walk list.c:67
        bnez a5, walk$1                 #: walk list.c:67
        lw a5, -20(s0)                  #: walk list.c:69
        mv a0, a5                       #: walk list.c:70
        lw s0, 44(sp)                   #: walk list.c:70
        addi sp, sp, 48                 #: walk list.c:70
        ret                             #: walk list.c:70
main:   addi sp, sp, -32                #: main list.c:73
        sw ra, 28(sp)                   #: main list.c:73
        sw s0, 24(sp)                   #: main list.c:73
        addi s0, sp, 32                 #: main list.c:73
        jal build                       #: main list.c:74
        mv a5, a0                       #: main list.c:74
        mv a0, a5                       #: main list.c:74
        jal reverse                     #: main list.c:74
        sw a0, -20(s0)                  #: main list.c:74
        lw a0, -20(s0)                  #: main list.c:75
        jal walk                        #: main list.c:75
        sw a0, -24(s0)                  #: main list.c:75
        lw a0, -20(s0)                  #: main list.c:76
        jal sort                        #: main list.c:76
        mv a5, a0                       #: main list.c:76
        mv a0, a5                       #: main list.c:76
        jal walk                        #: main list.c:76
        mv a4, a0                       #: main list.c:76
        lw a5, -24(s0)                  #: main list.c:76
        xor a5, a4, a5                  #: main list.c:76
        mv a0, a5                       #: main list.c:77
        lw ra, 28(sp)                   #: main list.c:77
        lw s0, 24(sp)                   #: main list.c:77
        addi sp, sp, 32                 #: main list.c:77
        ret                             #: main list.c:77
        .data
nodes:
        .zero 2048
