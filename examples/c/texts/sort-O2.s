# sort-O2.elf: 984 bytes of text, 0 of data, 512 of zeros
_start: auipc sp, 0x10                  #: _start start.S:5
        mv sp, sp                       #: _start start.S:5
        jal main                        #: _start start.S:6
        ebreak                          #: _start start.S:7
fill:   lui a4, 0x80000                 #: fill sort.c:11
        lui a5, 0x3                     #: fill sort.c:10
        addi a4, a4, 992                #: fill sort.c:10
        addi a5, a5, 57                 #: fill sort.c:10
        lui a2, 0x41c65                 #: fill sort.c:12
        addi a0, a4, 512                #: fill sort.c:12
        addi a2, a2, -403               #: fill sort.c:12
        mv a1, a5                       #: fill sort.c:12
fill$1: mul a5, a5, a2                  #: fill sort.c:12
        addi a4, a4, 4                  #: fill sort.c:11
        add a5, a5, a1                  #: fill sort.c:12
        srli a3, a5, 0x10               #: fill sort.c:13
        sw a3, -4(a4)                   #: fill sort.c:13
        bne a4, a0, fill$1              #: fill sort.c:11
        ret                             #: fill sort.c:15
sink:   slli a4, a0, 0x1                #: sink sort.c:53
        addi a4, a4, 1                  #: sink sort.c:53
        bge a4, a1, sink$5              #: sink sort.c:53
        lui a3, 0x80000                 #: sink sort.c:57
        addi a3, a3, 992                #: sink sort.c:57
        sh2add a5, a0, a3               #: sink sort.c:57
        lw a6, 0(a5)                    #: sink sort.c:57
        j sink$3                        #: sink sort.c:57
sink$1: lw a7, 0(a7)                    #: sink sort.c:55
        bgeu a2, a7, sink$4             #: sink sort.c:55
        mv a2, a7                       #: sink sort.c:55
        slli a4, a5, 0x1                #: sink sort.c:53
        addi a4, a4, 1                  #: sink sort.c:53
        sh2add t1, a0, a3               #: sink sort.c:20
        sh2add a7, a5, a3               #: sink sort.c:21
        bgeu a6, a2, sink$5             #: sink sort.c:57
sink$2: sw a2, 0(t1)                    #: sink sort.c:20
        sw a6, 0(a7)                    #: sink sort.c:21
        mv a0, a5                       #: sink sort.c:60
        bge a4, a1, sink$5              #: sink sort.c:53
sink$3: addi a5, a0, 1                  #: sink sort.c:55
        sh3add a7, a5, a3               #: sink sort.c:55
        slli a5, a5, 0x1                #: sink sort.c:55
        sh2add a2, a4, a3               #: sink sort.c:55
        lw a2, 0(a2)                    #: sink sort.c:55
        blt a5, a1, sink$1              #: sink sort.c:55
sink$4: mv a5, a4                       #: sink sort.c:55
        slli a4, a5, 0x1                #: sink sort.c:53
        addi a4, a4, 1                  #: sink sort.c:53
        sh2add t1, a0, a3               #: sink sort.c:20
        sh2add a7, a5, a3               #: sink sort.c:21
        bltu a6, a2, sink$2             #: sink sort.c:57
sink$5: ret                             #: sink sort.c:62
quicksort: addi sp, sp, -32             #: quicksort sort.c:32
        sw s0, 24(sp)                   #: quicksort sort.c:32
        sw s4, 8(sp)                    #: quicksort sort.c:32
        sw ra, 28(sp)                   #: quicksort sort.c:32
        sw s1, 20(sp)                   #: quicksort sort.c:32
        sw s2, 16(sp)                   #: quicksort sort.c:32
        sw s3, 12(sp)                   #: quicksort sort.c:32
        sub a4, a1, a0                  #: quicksort sort.c:33
        li a5, 7                        #: quicksort sort.c:33
        mv s4, a1                       #: quicksort sort.c:32
        mv s0, a0                       #: quicksort sort.c:33
        bge a5, a4, quicksort$11        #: quicksort sort.c:33
        lui s1, 0x80000                 #: quicksort sort.c:33
        lui s3, 0x40000                 #: quicksort sort.c:33
        addi s1, s1, 992                #: quicksort sort.c:33
        addi s3, s3, -1                 #: quicksort sort.c:33
        li s2, 7                        #: quicksort sort.c:33
quicksort$1: add a4, s4, a0             #: quicksort sort.c:37
        srli a5, a4, 0x1f               #: quicksort sort.c:37
        add a5, a5, a4                  #: quicksort sort.c:37
        srai a5, a5, 0x1                #: quicksort sort.c:37
        sh2add a5, a5, s1               #: quicksort sort.c:37
        lw a2, 0(a5)                    #: quicksort sort.c:37
        mv a1, s4                       #: quicksort sort.c:38
        mv s0, a0                       #: quicksort sort.c:39
quicksort$2: blt a1, s0, quicksort$8    #: quicksort sort.c:39
        sh2add a5, s0, s1               #: quicksort sort.c:40
        lw a3, 0(a5)                    #: quicksort sort.c:40
        addi a4, s0, 1                  #: quicksort sort.c:40
        sh2add a5, a1, s1               #: quicksort sort.c:42
        slli a7, s0, 0x2                #: quicksort sort.c:40
        lw a6, 0(a5)                    #: quicksort sort.c:42
        slli t1, a1, 0x2                #: quicksort sort.c:42
        sh2add a5, a4, s1               #: quicksort sort.c:42
        bltu a3, a2, quicksort$4        #: quicksort sort.c:40
        j quicksort$9                   #: quicksort sort.c:40
quicksort$3: addi a4, a4, 1             #: quicksort sort.c:40
quicksort$4: lw a3, 0(a5)               #: quicksort sort.c:40
        mv s0, a4                       #: quicksort sort.c:41
        addi a5, a5, 4                  #: quicksort sort.c:40
        bltu a3, a2, quicksort$3        #: quicksort sort.c:40
        bgeu a2, a6, quicksort$7        #: quicksort sort.c:42
quicksort$5: add a5, a1, s3             #: quicksort sort.c:42
        sh2add a5, a5, s1               #: quicksort sort.c:42
quicksort$6: lw a6, 0(a5)               #: quicksort sort.c:42
        addi a1, a1, -1                 #: quicksort sort.c:43
        addi a5, a5, -4                 #: quicksort sort.c:42
        bltu a2, a6, quicksort$6        #: quicksort sort.c:42
quicksort$7: bge a1, s0, quicksort$10   #: quicksort sort.c:44
quicksort$8: jal quicksort              #: quicksort sort.c:47
        sub a5, s4, s0                  #: quicksort sort.c:33
        bge s2, a5, quicksort$11        #: quicksort sort.c:33
        mv a0, s0                       #: quicksort sort.c:33
        j quicksort$1                   #: quicksort sort.c:33
quicksort$9: bltu a2, a6, quicksort$5   #: quicksort sort.c:42
        add a7, s1, a7                  #: quicksort sort.c:20
        sw a6, 0(a7)                    #: quicksort sort.c:20
        add t1, s1, t1                  #: quicksort sort.c:21
        sw a3, 0(t1)                    #: quicksort sort.c:21
        addi a1, a1, -1                 #: quicksort sort.c:45
        addi s0, s0, 1                  #: quicksort sort.c:45
        j quicksort$2                   #: quicksort sort.c:22
quicksort$10: slli a7, s0, 0x2          #: quicksort sort.c:22
        slli t1, a1, 0x2                #: quicksort sort.c:22
        add a7, s1, a7                  #: quicksort sort.c:20
        sw a6, 0(a7)                    #: quicksort sort.c:20
        add t1, s1, t1                  #: quicksort sort.c:21
        sw a3, 0(t1)                    #: quicksort sort.c:21
        addi a1, a1, -1                 #: quicksort sort.c:45
        addi s0, s0, 1                  #: quicksort sort.c:45
        j quicksort$2                   #: quicksort sort.c:45
quicksort$11: addi a1, s0, 1            #: quicksort sort.c:26
        blt s4, a1, quicksort$16        #: quicksort sort.c:26
        lui a0, 0x80000                 #: quicksort sort.c:26
        addi a0, a0, 992                #: quicksort sort.c:26
        addi s4, s4, 1                  #: quicksort sort.c:26
        sh2add a0, a1, a0               #: quicksort sort.c:26
quicksort$12: mv a5, a0                 #: quicksort sort.c:27
        mv a4, a1                       #: quicksort sort.c:27
        blt s0, a1, quicksort$14        #: quicksort sort.c:27
        j quicksort$15                  #: quicksort sort.c:27
quicksort$13: sw a2, -4(a5)             #: quicksort sort.c:20
        sw a3, 0(a5)                    #: quicksort sort.c:21
        addi a5, a5, -4                 #: quicksort sort.c:27
        beq a4, s0, quicksort$15        #: quicksort sort.c:27
quicksort$14: lw a3, -4(a5)             #: quicksort sort.c:27
        lw a2, 0(a5)                    #: quicksort sort.c:27
        addi a4, a4, -1                 #: quicksort sort.c:27
        bltu a2, a3, quicksort$13       #: quicksort sort.c:27
quicksort$15: addi a1, a1, 1            #: quicksort sort.c:26
        addi a0, a0, 4                  #: quicksort sort.c:26
        bne a1, s4, quicksort$12        #: quicksort sort.c:26
quicksort$16: lw ra, 28(sp)             #: quicksort sort.c:49
        lw s0, 24(sp)                   #: quicksort sort.c:49
        lw s1, 20(sp)                   #: quicksort sort.c:49
        lw s2, 16(sp)                   #: quicksort sort.c:49
        lw s3, 12(sp)                   #: quicksort sort.c:49
        lw s4, 8(sp)                    #: quicksort sort.c:49
        addi sp, sp, 32                 #: quicksort sort.c:49
        ret                             #: quicksort sort.c:49
main:   addi sp, sp, -32                #: main sort.c:83
        sw s4, 8(sp)                    #: main sort.c:83
        lui s4, 0x80000                 #: main sort.c:83
        sw ra, 28(sp)                   #: main sort.c:83
        sw s0, 24(sp)                   #: main sort.c:83
        sw s1, 20(sp)                   #: main sort.c:83
        sw s2, 16(sp)                   #: main sort.c:83
        sw s3, 12(sp)                   #: main sort.c:83
        sw s5, 4(sp)                    #: main sort.c:83
        sw s6, 0(sp)                    #: main sort.c:83
        addi s4, s4, 992                #: main sort.c:83
        jal fill                        #: main sort.c:84
        addi a1, s4, 4                  #: main sort.c:26
        li a2, 1                        #: main sort.c:26
        li a0, 128                      #: main sort.c:26
main$1: mv s2, s4                       #: main sort.c:27
        mv a5, a1                       #: main sort.c:83
        j main$3                        #: main sort.c:83
main$2: sw a3, -4(a5)                   #: main sort.c:20
        sw a4, 0(a5)                    #: main sort.c:21
        addi a5, a5, -4                 #: main sort.c:27
        beq s4, a5, main$4              #: main sort.c:27
main$3: lw a4, -4(a5)                   #: main sort.c:27
        lw a3, 0(a5)                    #: main sort.c:27
        bltu a3, a4, main$2             #: main sort.c:27
main$4: addi a2, a2, 1                  #: main sort.c:26
        addi a1, a1, 4                  #: main sort.c:26
        bne a2, a0, main$1              #: main sort.c:26
        mv a3, s4                       #: main sort.c:26
        li s3, 0                        #: main sort.c:76
        li a5, 0                        #: main sort.c:77
        li a2, 128                      #: main sort.c:77
main$5: lw a4, 0(a3)                    #: main sort.c:78
        addi a5, a5, 1                  #: main sort.c:78
        addi a3, a3, 4                  #: main sort.c:77
        mul a4, a5, a4                  #: main sort.c:78
        add s3, s3, a4                  #: main sort.c:78
        bne a5, a2, main$5              #: main sort.c:77
        jal fill                        #: main sort.c:87
        li a1, 127                      #: main sort.c:88
        li a0, 0                        #: main sort.c:88
        jal quicksort                   #: main sort.c:88
        li s5, 0                        #: main sort.c:76
        mv a3, s4                       #: main sort.c:88
        li a5, 0                        #: main sort.c:77
        li a2, 128                      #: main sort.c:77
main$6: lw a4, 0(a3)                    #: main sort.c:78
        addi a5, a5, 1                  #: main sort.c:78
        addi a3, a3, 4                  #: main sort.c:77
        mul a4, a5, a4                  #: main sort.c:78
        add s5, s5, a4                  #: main sort.c:78
        bne a5, a2, main$6              #: main sort.c:77
        jal fill                        #: main sort.c:90
        li s6, 63                       #: main sort.c:66
        li s0, -1                       #: main sort.c:66
main$7: mv a0, s6                       #: main sort.c:67
        li a1, 128                      #: main sort.c:67
        addi s6, s6, -1                 #: main sort.c:66
        jal sink                        #: main sort.c:67
        bne s6, s0, main$7              #: main sort.c:66
        addi s1, s4, 508                #: main sort.c:66
        li s0, 127                      #: main sort.c:66
main$8: lw a4, 0(s1)                    #: main sort.c:20
        lw a5, 0(s4)                    #: main sort.c:19
        mv a1, s0                       #: main sort.c:70
        sw a4, 0(s4)                    #: main sort.c:20
        sw a5, 0(s1)                    #: main sort.c:21
        li a0, 0                        #: main sort.c:70
        addi s0, s0, -1                 #: main sort.c:68
        jal sink                        #: main sort.c:70
        addi s1, s1, -4                 #: main sort.c:68
        bnez s0, main$8                 #: main sort.c:68
        li a5, 0                        #: main sort.c:77
        li a3, 128                      #: main sort.c:77
main$9: lw a4, 0(s2)                    #: main sort.c:78
        addi a5, a5, 1                  #: main sort.c:78
        addi s2, s2, 4                  #: main sort.c:77
        mul a4, a5, a4                  #: main sort.c:78
        add s0, s0, a4                  #: main sort.c:78
        bne a5, a3, main$9              #: main sort.c:77
        bne s5, s3, main$10             #: main sort.c:93
        bne s0, s5, main$10             #: main sort.c:93
        mv s6, s0                       #: main sort.c:93
main$10: lw ra, 28(sp)                  #: main sort.c:94
        lw s0, 24(sp)                   #: main sort.c:94
        lw s1, 20(sp)                   #: main sort.c:94
        lw s2, 16(sp)                   #: main sort.c:94
        lw s3, 12(sp)                   #: main sort.c:94
        lw s4, 8(sp)                    #: main sort.c:94
        lw s5, 4(sp)                    #: main sort.c:94
        mv a0, s6                       #: main sort.c:94
        lw s6, 0(sp)                    #: main sort.c:94
        addi sp, sp, 32                 #: main sort.c:94
        ret                             #: main sort.c:94
        .data
numbers:
        .zero 512
