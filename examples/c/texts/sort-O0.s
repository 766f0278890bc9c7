# sort-O0.elf: 1456 bytes of text, 0 of data, 512 of zeros
_start: auipc sp, 0x10                  #: _start start.S:5
        mv sp, sp                       #: _start start.S:5
        jal main                        #: _start start.S:6
        ebreak                          #: _start start.S:7
fill:   addi sp, sp, -32                #: fill sort.c:9
        sw s0, 28(sp)                   #: fill sort.c:9
        addi s0, sp, 32                 #: fill sort.c:9
        lui a5, 0x3                     #: fill sort.c:10
        addi a5, a5, 57                 #: fill sort.c:10
        sw a5, -20(s0)                  #: fill sort.c:10
        sw zero, -24(s0)                #: fill sort.c:11
        j fill$2                        #: fill sort.c:11
fill$1: lw a4, -20(s0)                  #: fill sort.c:12
        lui a5, 0x41c65                 #: fill sort.c:12
        addi a5, a5, -403               #: fill sort.c:12
        mul a4, a4, a5                  #: fill sort.c:12
        lui a5, 0x3                     #: fill sort.c:12
        addi a5, a5, 57                 #: fill sort.c:12
        add a5, a4, a5                  #: fill sort.c:12
        sw a5, -20(s0)                  #: fill sort.c:12
        lw a5, -20(s0)                  #: fill sort.c:13
        srli a4, a5, 0x10               #: fill sort.c:13
        lui a5, 0x80000                 #: fill sort.c:13
        addi a3, a5, 1456               #: fill sort.c:13
        lw a5, -24(s0)                  #: fill sort.c:13
        slli a5, a5, 0x2                #: fill sort.c:13
        add a5, a3, a5                  #: fill sort.c:13
        sw a4, 0(a5)                    #: fill sort.c:13
        lw a5, -24(s0)                  #: fill sort.c:11
        addi a5, a5, 1                  #: fill sort.c:11
        sw a5, -24(s0)                  #: fill sort.c:11
fill$2: lw a4, -24(s0)                  #: fill sort.c:11
        li a5, 127                      #: fill sort.c:11
        bge a5, a4, fill$1              #: fill sort.c:11
        nop                             #: fill sort.c:15
        nop                             #: fill sort.c:15
        lw s0, 28(sp)                   #: fill sort.c:15
        addi sp, sp, 32                 #: fill sort.c:15
        ret                             #: fill sort.c:15
swap:   addi sp, sp, -48                #: swap sort.c:18
        sw s0, 44(sp)                   #: swap sort.c:18
        addi s0, sp, 48                 #: swap sort.c:18
        sw a0, -36(s0)                  #: swap sort.c:18
        sw a1, -40(s0)                  #: swap sort.c:18
        lui a5, 0x80000                 #: swap sort.c:19
        addi a4, a5, 1456               #: swap sort.c:19
        lw a5, -36(s0)                  #: swap sort.c:19
        slli a5, a5, 0x2                #: swap sort.c:19
        add a5, a4, a5                  #: swap sort.c:19
        lw a5, 0(a5)                    #: swap sort.c:19
        sw a5, -20(s0)                  #: swap sort.c:19
        lui a5, 0x80000                 #: swap sort.c:20
        addi a4, a5, 1456               #: swap sort.c:20
        lw a5, -40(s0)                  #: swap sort.c:20
        slli a5, a5, 0x2                #: swap sort.c:20
        add a5, a4, a5                  #: swap sort.c:20
        lw a4, 0(a5)                    #: swap sort.c:20
        lui a5, 0x80000                 #: swap sort.c:20
        addi a3, a5, 1456               #: swap sort.c:20
        lw a5, -36(s0)                  #: swap sort.c:20
        slli a5, a5, 0x2                #: swap sort.c:20
        add a5, a3, a5                  #: swap sort.c:20
        sw a4, 0(a5)                    #: swap sort.c:20
        lui a5, 0x80000                 #: swap sort.c:21
        addi a4, a5, 1456               #: swap sort.c:21
        lw a5, -40(s0)                  #: swap sort.c:21
        slli a5, a5, 0x2                #: swap sort.c:21
        add a5, a4, a5                  #: swap sort.c:21
        lw a4, -20(s0)                  #: swap sort.c:21
        sw a4, 0(a5)                    #: swap sort.c:21
        nop                             #: swap sort.c:22
        lw s0, 44(sp)                   #: swap sort.c:22
        addi sp, sp, 48                 #: swap sort.c:22
        ret                             #: swap sort.c:22
by_insertion: addi sp, sp, -48          #: by_insertion sort.c:25
        sw ra, 44(sp)                   #: by_insertion sort.c:25
        sw s0, 40(sp)                   #: by_insertion sort.c:25
        addi s0, sp, 48                 #: by_insertion sort.c:25
        sw a0, -36(s0)                  #: by_insertion sort.c:25
        sw a1, -40(s0)                  #: by_insertion sort.c:25
        lw a5, -36(s0)                  #: by_insertion sort.c:26
        addi a5, a5, 1                  #: by_insertion sort.c:26
        sw a5, -20(s0)                  #: by_insertion sort.c:26
        j by_insertion$5                #: by_insertion sort.c:26
by_insertion$1: lw a5, -20(s0)          #: by_insertion sort.c:27
        sw a5, -24(s0)                  #: by_insertion sort.c:27
        j by_insertion$3                #: by_insertion sort.c:27
by_insertion$2: lw a5, -24(s0)          #: by_insertion sort.c:28
        addi a5, a5, -1                 #: by_insertion sort.c:28
        lw a1, -24(s0)                  #: by_insertion sort.c:28
        mv a0, a5                       #: by_insertion sort.c:28
        jal swap                        #: by_insertion sort.c:28
        lw a5, -24(s0)                  #: by_insertion sort.c:27
        addi a5, a5, -1                 #: by_insertion sort.c:27
        sw a5, -24(s0)                  #: by_insertion sort.c:27
by_insertion$3: lw a4, -24(s0)          #: by_insertion sort.c:27
        lw a5, -36(s0)                  #: by_insertion sort.c:27
        bge a5, a4, by_insertion$4      #: by_insertion sort.c:27
        lw a5, -24(s0)                  #: by_insertion sort.c:27
        addi a5, a5, -1                 #: by_insertion sort.c:27
        lui a4, 0x80000                 #: by_insertion sort.c:27
        addi a4, a4, 1456               #: by_insertion sort.c:27
        slli a5, a5, 0x2                #: by_insertion sort.c:27
        add a5, a4, a5                  #: by_insertion sort.c:27
        lw a4, 0(a5)                    #: by_insertion sort.c:27
        lui a5, 0x80000                 #: by_insertion sort.c:27
        addi a3, a5, 1456               #: by_insertion sort.c:27
        lw a5, -24(s0)                  #: by_insertion sort.c:27
        slli a5, a5, 0x2                #: by_insertion sort.c:27
        add a5, a3, a5                  #: by_insertion sort.c:27
        lw a5, 0(a5)                    #: by_insertion sort.c:27
        bltu a5, a4, by_insertion$2     #: by_insertion sort.c:27
by_insertion$4: lw a5, -20(s0)          #: by_insertion sort.c:26
        addi a5, a5, 1                  #: by_insertion sort.c:26
        sw a5, -20(s0)                  #: by_insertion sort.c:26
by_insertion$5: lw a4, -20(s0)          #: by_insertion sort.c:26
        lw a5, -40(s0)                  #: by_insertion sort.c:26
        bge a5, a4, by_insertion$1      #: by_insertion sort.c:26
        nop                             #: by_insertion sort.c:29
        nop                             #: by_insertion sort.c:29
        lw ra, 44(sp)                   #: by_insertion sort.c:29
        lw s0, 40(sp)                   #: by_insertion sort.c:29
        addi sp, sp, 48                 #: by_insertion sort.c:29
        ret                             #: by_insertion sort.c:29
quicksort: addi sp, sp, -48             #: quicksort sort.c:32
        sw ra, 44(sp)                   #: quicksort sort.c:32
        sw s0, 40(sp)                   #: quicksort sort.c:32
        addi s0, sp, 48                 #: quicksort sort.c:32
        sw a0, -36(s0)                  #: quicksort sort.c:32
        sw a1, -40(s0)                  #: quicksort sort.c:32
        lw a4, -40(s0)                  #: quicksort sort.c:33
        lw a5, -36(s0)                  #: quicksort sort.c:33
        sub a4, a4, a5                  #: quicksort sort.c:33
        li a5, 7                        #: quicksort sort.c:33
        blt a5, a4, quicksort$1         #: quicksort sort.c:33
        lw a1, -40(s0)                  #: quicksort sort.c:34
        lw a0, -36(s0)                  #: quicksort sort.c:34
        jal by_insertion                #: quicksort sort.c:34
        j quicksort$7                   #: quicksort sort.c:35
quicksort$1: lw a4, -36(s0)             #: quicksort sort.c:37
        lw a5, -40(s0)                  #: quicksort sort.c:37
        add a5, a4, a5                  #: quicksort sort.c:37
        srli a4, a5, 0x1f               #: quicksort sort.c:37
        add a5, a4, a5                  #: quicksort sort.c:37
        srai a5, a5, 0x1                #: quicksort sort.c:37
        mv a3, a5                       #: quicksort sort.c:37
        lui a5, 0x80000                 #: quicksort sort.c:37
        addi a4, a5, 1456               #: quicksort sort.c:37
        slli a5, a3, 0x2                #: quicksort sort.c:37
        add a5, a4, a5                  #: quicksort sort.c:37
        lw a5, 0(a5)                    #: quicksort sort.c:37
        sw a5, -28(s0)                  #: quicksort sort.c:37
        lw a5, -36(s0)                  #: quicksort sort.c:38
        sw a5, -20(s0)                  #: quicksort sort.c:38
        lw a5, -40(s0)                  #: quicksort sort.c:38
        sw a5, -24(s0)                  #: quicksort sort.c:38
        j quicksort$6                   #: quicksort sort.c:39
quicksort$2: lw a5, -20(s0)             #: quicksort sort.c:41
        addi a5, a5, 1                  #: quicksort sort.c:41
        sw a5, -20(s0)                  #: quicksort sort.c:41
quicksort$3: lui a5, 0x80000            #: quicksort sort.c:40
        addi a4, a5, 1456               #: quicksort sort.c:40
        lw a5, -20(s0)                  #: quicksort sort.c:40
        slli a5, a5, 0x2                #: quicksort sort.c:40
        add a5, a4, a5                  #: quicksort sort.c:40
        lw a5, 0(a5)                    #: quicksort sort.c:40
        lw a4, -28(s0)                  #: quicksort sort.c:40
        bltu a5, a4, quicksort$2        #: quicksort sort.c:40
        j quicksort$5                   #: quicksort sort.c:42
quicksort$4: lw a5, -24(s0)             #: quicksort sort.c:43
        addi a5, a5, -1                 #: quicksort sort.c:43
        sw a5, -24(s0)                  #: quicksort sort.c:43
quicksort$5: lui a5, 0x80000            #: quicksort sort.c:42
        addi a4, a5, 1456               #: quicksort sort.c:42
        lw a5, -24(s0)                  #: quicksort sort.c:42
        slli a5, a5, 0x2                #: quicksort sort.c:42
        add a5, a4, a5                  #: quicksort sort.c:42
        lw a5, 0(a5)                    #: quicksort sort.c:42
        lw a4, -28(s0)                  #: quicksort sort.c:42
        bltu a4, a5, quicksort$4        #: quicksort sort.c:42
        lw a4, -20(s0)                  #: quicksort sort.c:44
        lw a5, -24(s0)                  #: quicksort sort.c:44
        blt a5, a4, quicksort$6         #: quicksort sort.c:44
        lw a5, -20(s0)                  #: quicksort sort.c:45
        addi a4, a5, 1                  #: quicksort sort.c:45
        sw a4, -20(s0)                  #: quicksort sort.c:45
        lw a4, -24(s0)                  #: quicksort sort.c:45
        addi a3, a4, -1                 #: quicksort sort.c:45
        sw a3, -24(s0)                  #: quicksort sort.c:45
        mv a1, a4                       #: quicksort sort.c:45
        mv a0, a5                       #: quicksort sort.c:45
        jal swap                        #: quicksort sort.c:45
quicksort$6: lw a4, -20(s0)             #: quicksort sort.c:39
        lw a5, -24(s0)                  #: quicksort sort.c:39
        bge a5, a4, quicksort$3         #: quicksort sort.c:39
        lw a1, -24(s0)                  #: quicksort sort.c:47
        lw a0, -36(s0)                  #: quicksort sort.c:47
        jal quicksort                   #: quicksort sort.c:47
        lw a1, -40(s0)                  #: quicksort sort.c:48
        lw a0, -20(s0)                  #: quicksort sort.c:48
        jal quicksort                   #: quicksort sort.c:48
quicksort$7: lw ra, 44(sp)              #: quicksort sort.c:49
        lw s0, 40(sp)                   #: quicksort sort.c:49
        addi sp, sp, 48                 #: quicksort sort.c:49
        ret                             #: quicksort sort.c:49
sink:   addi sp, sp, -48                #: sink sort.c:52
        sw ra, 44(sp)                   #: sink sort.c:52
        sw s0, 40(sp)                   #: sink sort.c:52
        addi s0, sp, 48                 #: sink sort.c:52
        sw a0, -36(s0)                  #: sink sort.c:52
        sw a1, -40(s0)                  #: sink sort.c:52
        j sink$3                        #: sink sort.c:53
sink$1: lw a5, -36(s0)                  #: sink sort.c:54
        slli a5, a5, 0x1                #: sink sort.c:54
        addi a5, a5, 1                  #: sink sort.c:54
        sw a5, -20(s0)                  #: sink sort.c:54
        lw a5, -20(s0)                  #: sink sort.c:55
        addi a5, a5, 1                  #: sink sort.c:55
        lw a4, -40(s0)                  #: sink sort.c:55
        bge a5, a4, sink$2              #: sink sort.c:55
        lui a5, 0x80000                 #: sink sort.c:55
        addi a4, a5, 1456               #: sink sort.c:55
        lw a5, -20(s0)                  #: sink sort.c:55
        slli a5, a5, 0x2                #: sink sort.c:55
        add a5, a4, a5                  #: sink sort.c:55
        lw a4, 0(a5)                    #: sink sort.c:55
        lw a5, -20(s0)                  #: sink sort.c:55
        addi a5, a5, 1                  #: sink sort.c:55
        lui a3, 0x80000                 #: sink sort.c:55
        addi a3, a3, 1456               #: sink sort.c:55
        slli a5, a5, 0x2                #: sink sort.c:55
        add a5, a3, a5                  #: sink sort.c:55
        lw a5, 0(a5)                    #: sink sort.c:55
        bgeu a4, a5, sink$2             #: sink sort.c:55
        lw a5, -20(s0)                  #: sink sort.c:56
        addi a5, a5, 1                  #: sink sort.c:56
        sw a5, -20(s0)                  #: sink sort.c:56
sink$2: lui a5, 0x80000                 #: sink sort.c:57
        addi a4, a5, 1456               #: sink sort.c:57
        lw a5, -36(s0)                  #: sink sort.c:57
        slli a5, a5, 0x2                #: sink sort.c:57
        add a5, a4, a5                  #: sink sort.c:57
        lw a4, 0(a5)                    #: sink sort.c:57
        lui a5, 0x80000                 #: sink sort.c:57
        addi a3, a5, 1456               #: sink sort.c:57
        lw a5, -20(s0)                  #: sink sort.c:57
        slli a5, a5, 0x2                #: sink sort.c:57
        add a5, a3, a5                  #: sink sort.c:57
        lw a5, 0(a5)                    #: sink sort.c:57
        bgeu a4, a5, sink$4             #: sink sort.c:57
        lw a1, -20(s0)                  #: sink sort.c:59
        lw a0, -36(s0)                  #: sink sort.c:59
        jal swap                        #: sink sort.c:59
        lw a5, -20(s0)                  #: sink sort.c:60
        sw a5, -36(s0)                  #: sink sort.c:60
sink$3: lw a5, -36(s0)                  #: sink sort.c:53
        slli a5, a5, 0x1                #: sink sort.c:53
        addi a5, a5, 1                  #: sink sort.c:53
        lw a4, -40(s0)                  #: sink sort.c:53
        blt a5, a4, sink$1              #: sink sort.c:53
        j sink$5                        #: sink sort.c:53
sink$4: nop                             #: sink sort.c:58
sink$5: lw ra, 44(sp)                   #: sink sort.c:62
        lw s0, 40(sp)                   #: sink sort.c:62
        addi sp, sp, 48                 #: sink sort.c:62
        ret                             #: sink sort.c:62
heapsort: addi sp, sp, -32              #: heapsort sort.c:65
        sw ra, 28(sp)                   #: heapsort sort.c:65
        sw s0, 24(sp)                   #: heapsort sort.c:65
        addi s0, sp, 32                 #: heapsort sort.c:65
        li a5, 63                       #: heapsort sort.c:66
        sw a5, -20(s0)                  #: heapsort sort.c:66
        j heapsort$2                    #: heapsort sort.c:66
heapsort$1: li a1, 128                  #: heapsort sort.c:67
        lw a0, -20(s0)                  #: heapsort sort.c:67
        jal sink                        #: heapsort sort.c:67
        lw a5, -20(s0)                  #: heapsort sort.c:66
        addi a5, a5, -1                 #: heapsort sort.c:66
        sw a5, -20(s0)                  #: heapsort sort.c:66
heapsort$2: lw a5, -20(s0)              #: heapsort sort.c:66
        bgez a5, heapsort$1             #: heapsort sort.c:66
        li a5, 127                      #: heapsort sort.c:68
        sw a5, -24(s0)                  #: heapsort sort.c:68
        j heapsort$4                    #: heapsort sort.c:68
heapsort$3: lw a1, -24(s0)              #: heapsort sort.c:69
        li a0, 0                        #: heapsort sort.c:69
        jal swap                        #: heapsort sort.c:69
        lw a1, -24(s0)                  #: heapsort sort.c:70
        li a0, 0                        #: heapsort sort.c:70
        jal sink                        #: heapsort sort.c:70
        lw a5, -24(s0)                  #: heapsort sort.c:68
        addi a5, a5, -1                 #: heapsort sort.c:68
        sw a5, -24(s0)                  #: heapsort sort.c:68
heapsort$4: lw a5, -24(s0)              #: heapsort sort.c:68
        bgtz a5, heapsort$3             #: heapsort sort.c:68
        nop                             #: heapsort sort.c:72
        nop                             #: heapsort sort.c:72
        lw ra, 28(sp)                   #: heapsort sort.c:72
        lw s0, 24(sp)                   #: heapsort sort.c:72
        addi sp, sp, 32                 #: heapsort sort.c:72
        ret                             #: heapsort sort.c:72
sum:    addi sp, sp, -32                #: sum sort.c:75
        sw s0, 28(sp)                   #: sum sort.c:75
        addi s0, sp, 32                 #: sum sort.c:75
        sw zero, -20(s0)                #: sum sort.c:76
        sw zero, -24(s0)                #: sum sort.c:77
        j sum$2                         #: sum sort.c:77
sum$1:  lui a5, 0x80000                 #: sum sort.c:78
        addi a4, a5, 1456               #: sum sort.c:78
        lw a5, -24(s0)                  #: sum sort.c:78
        slli a5, a5, 0x2                #: sum sort.c:78
        add a5, a4, a5                  #: sum sort.c:78
        lw a5, 0(a5)                    #: sum sort.c:78
        lw a4, -24(s0)                  #: sum sort.c:78
        addi a4, a4, 1                  #: sum sort.c:78
        mul a5, a5, a4                  #: sum sort.c:78
        lw a4, -20(s0)                  #: sum sort.c:78
        add a5, a4, a5                  #: sum sort.c:78
        sw a5, -20(s0)                  #: sum sort.c:78
        lw a5, -24(s0)                  #: sum sort.c:77
        addi a5, a5, 1                  #: sum sort.c:77
        sw a5, -24(s0)                  #: sum sort.c:77
sum$2:  lw a4, -24(s0)                  #: sum sort.c:77
        li a5, 127                      #: sum sort.c:77
        bge a5, a4, sum$1               #: sum sort.c:77
        lw a5, -20(s0)                  #: sum sort.c:79
        mv a0, a5                       #: sum sort.c:80
        lw s0, 28(sp)                   #: sum sort.c:80
        addi sp, sp, 32                 #: sum sort.c:80
        ret                             #: sum sort.c:80
main:   addi sp, sp, -32                #: main sort.c:83
        sw ra, 28(sp)                   #: main sort.c:83
        sw s0, 24(sp)                   #: main sort.c:83
        addi s0, sp, 32                 #: main sort.c:83
        jal fill                        #: main sort.c:84
        li a1, 127                      #: main sort.c:85
        li a0, 0                        #: main sort.c:85
        jal by_insertion                #: main sort.c:85
        jal sum                         #: main sort.c:86
        sw a0, -20(s0)                  #: main sort.c:86
        jal fill                        #: main sort.c:87
        li a1, 127                      #: main sort.c:88
        li a0, 0                        #: main sort.c:88
        jal quicksort                   #: main sort.c:88
        jal sum                         #: main sort.c:89
        sw a0, -24(s0)                  #: main sort.c:89
        jal fill                        #: main sort.c:90
        jal heapsort                    #: main sort.c:91
        jal sum                         #: main sort.c:92
        sw a0, -28(s0)                  #: main sort.c:92
        lw a4, -20(s0)                  #: main sort.c:93
        lw a5, -24(s0)                  #: main sort.c:93
        bne a4, a5, main$1              #: main sort.c:93
        lw a4, -24(s0)                  #: main sort.c:93
        lw a5, -28(s0)                  #: main sort.c:93
        bne a4, a5, main$1              #: main sort.c:93
        lw a5, -20(s0)                  #: main sort.c:93
        j main$2                        #: main sort.c:93
main$1: li a5, -1                       #: main sort.c:93
main$2: mv a0, a5                       #: main sort.c:94
        lw ra, 28(sp)                   #: main sort.c:94
        lw s0, 24(sp)                   #: main sort.c:94
        addi sp, sp, 32                 #: main sort.c:94
        ret                             #: main sort.c:94
        .data
numbers:
        .zero 512
