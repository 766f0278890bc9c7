# list-O2.elf: 464 bytes of text, 0 of data, 2048 of zeros
_start: auipc sp, 0x10                  #: _start start.S:5
        mv sp, sp                       #: _start start.S:5
        jal main                        #: _start start.S:6
        ebreak                          #: _start start.S:7
sort:   beqz a0, sort$7                 #: sort list.c:52
        lw a5, 0(a0)                    #: sort list.c:52
        beqz a5, sort$8                 #: sort list.c:52
        addi sp, sp, -32                #: sort list.c:51
        sw s1, 20(sp)                   #: sort list.c:51
        sw ra, 28(sp)                   #: sort list.c:51
        sw s0, 24(sp)                   #: sort list.c:51
        mv s1, a5                       #: sort list.c:51
        mv a3, a0                       #: sort list.c:51
        j sort$2                        #: sort list.c:51
sort$1: lw a4, 0(s1)                    #: sort list.c:59
        lw a5, 0(a5)                    #: sort list.c:57
        mv a3, s1                       #: sort list.c:55
        mv s1, a4                       #: sort list.c:59
        beqz a5, sort$3                 #: sort list.c:55
sort$2: lw a5, 0(a5)                    #: sort list.c:55
        bnez a5, sort$1                 #: sort list.c:55
sort$3: sw zero, 0(a3)                  #: sort list.c:60
        jal sort                        #: sort list.c:61
        mv s0, a0                       #: sort list.c:61
        mv a0, s1                       #: sort list.c:61
        jal sort                        #: sort list.c:61
        sw a0, 8(sp)                    #: sort list.c:61
        sw s0, 4(sp)                    #: sort list.c:61
        sw zero, 12(sp)                 #: sort list.c:39
        addi a4, sp, 12                 #: sort list.c:39
        beqz s0, sort$10                #: sort list.c:40
        beqz a0, sort$6                 #: sort list.c:40
sort$4: lw a2, 4(s0)                    #: sort list.c:41
        lw a3, 4(a0)                    #: sort list.c:41
        addi a5, sp, 4                  #: sort list.c:41
        bgeu a3, a2, sort$5             #: sort list.c:41
        mv s0, a0                       #: sort list.c:41
        addi a5, sp, 8                  #: sort list.c:41
sort$5: sw s0, 0(a4)                    #: sort list.c:42
        lw a3, 0(s0)                    #: sort list.c:44
        mv a4, s0                       #: sort list.c:43
        sw a3, 0(a5)                    #: sort list.c:44
        lw s0, 4(sp)                    #: sort list.c:40
        beqz s0, sort$9                 #: sort list.c:40
        lw a0, 8(sp)                    #: sort list.c:40
        bnez a0, sort$4                 #: sort list.c:40
sort$6: sw s0, 0(a4)                    #: sort list.c:46
        lw ra, 28(sp)                   #: sort list.c:62
        lw s0, 24(sp)                   #: sort list.c:62
        lw a0, 12(sp)                   #: sort list.c:47
        lw s1, 20(sp)                   #: sort list.c:62
        addi sp, sp, 32                 #: sort list.c:62
        ret                             #: sort list.c:62
sort$7: li a0, 0                        #: sort list.c:62
        ret                             #: sort list.c:62
sort$8: ret                             #: sort list.c:62
sort$9: lw s0, 8(sp)                    #: sort list.c:46
        lw ra, 28(sp)                   #: sort list.c:62
        lw s1, 20(sp)                   #: sort list.c:62
        sw s0, 0(a4)                    #: sort list.c:46
        lw s0, 24(sp)                   #: sort list.c:62
        lw a0, 12(sp)                   #: sort list.c:47
        addi sp, sp, 32                 #: sort list.c:62
        ret                             #: sort list.c:62
sort$10: mv s0, a0                      #: sort list.c:40
        j sort$6                        #: sort list.c:40
main:   addi sp, sp, -16                #: main list.c:73
        lui t1, 0x80000                 #: main list.c:73
        lui a7, 0x9e378                 #: main list.c:16
        lui a6, 0x5                     #: main list.c:16
        sw ra, 12(sp)                   #: main list.c:73
        sw s0, 8(sp)                    #: main list.c:73
        li a4, 0                        #: main list.c:73
        li a5, 0                        #: main list.c:73
        li a0, 0                        #: main list.c:15
        addi t1, t1, 464                #: main list.c:15
        addi a7, a7, -1615              #: main list.c:16
        addi a6, a6, 768                #: main list.c:16
main$1: andi a1, a5, 255                #: main list.c:17
        mv a3, a0                       #: main list.c:17
        srli a2, a4, 0x8                #: main list.c:18
        sh3add a0, a1, t1               #: main list.c:17
        addi a5, a5, 83                 #: main list.c:16
        sw a2, 4(a0)                    #: main list.c:18
        sw a3, 0(a0)                    #: main list.c:19
        add a4, a4, a7                  #: main list.c:16
        bne a5, a6, main$1              #: main list.c:16
        li a5, 0                        #: main list.c:27
        j main$3                        #: main list.c:27
main$2: mv a5, a0                       #: main list.c:27
        mv a0, a4                       #: main list.c:32
main$3: lw a4, 0(a0)                    #: main list.c:29
        sw a5, 0(a0)                    #: main list.c:30
        bnez a4, main$2                 #: main list.c:28
        lw s0, 4(a0)                    #: main list.c:68
        beqz a5, main$5                 #: main list.c:67
main$4: lw a4, 4(a5)                    #: main list.c:68
        lw a5, 0(a5)                    #: main list.c:67
        slli a3, s0, 0x5                #: main list.c:68
        add s0, a3, s0                  #: main list.c:68
        add s0, s0, a4                  #: main list.c:68
        bnez a5, main$4                 #: main list.c:67
main$5: jal sort                        #: main list.c:76
        li a5, 0                        #: main list.c:66
        beqz a0, main$7                 #: main list.c:67
main$6: lw a4, 4(a0)                    #: main list.c:68
        lw a0, 0(a0)                    #: main list.c:67
        slli a3, a5, 0x5                #: main list.c:68
        add a5, a3, a5                  #: main list.c:68
        add a5, a5, a4                  #: main list.c:68
        bnez a0, main$6                 #: main list.c:67
main$7: lw ra, 12(sp)                   #: main list.c:77
        xor a0, a5, s0                  #: main list.c:77
        lw s0, 8(sp)                    #: main list.c:77
        addi sp, sp, 16                 #: main list.c:77
        ret                             #: main list.c:77
        .data
nodes:
        .zero 2048
