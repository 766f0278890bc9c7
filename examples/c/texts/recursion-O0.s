# recursion-O0.elf: 348 bytes of text, 0 of data, 0 of zeros
_start: auipc sp, 0x10                  #: _start start.S:5
        mv sp, sp                       #: _start start.S:5
        jal main                        #: _start start.S:6
        ebreak                          #: _start start.S:7
fibonacci: addi sp, sp, -32             #: fibonacci recursion.c:5
        sw ra, 28(sp)                   #: fibonacci recursion.c:5
        sw s0, 24(sp)                   #: fibonacci recursion.c:5
        sw s1, 20(sp)                   #: fibonacci recursion.c:5
        addi s0, sp, 32                 #: fibonacci recursion.c:5
        sw a0, -20(s0)                  #: fibonacci recursion.c:5
        lw a4, -20(s0)                  #: fibonacci recursion.c:6
        li a5, 1                        #: fibonacci recursion.c:6
        bgeu a5, a4, fibonacci$1        #: fibonacci recursion.c:6
        lw a5, -20(s0)                  #: fibonacci recursion.c:6
        addi a5, a5, -1                 #: fibonacci recursion.c:6
        mv a0, a5                       #: fibonacci recursion.c:6
        jal fibonacci                   #: fibonacci recursion.c:6
        mv s1, a0                       #: fibonacci recursion.c:6
        lw a5, -20(s0)                  #: fibonacci recursion.c:6
        addi a5, a5, -2                 #: fibonacci recursion.c:6
        mv a0, a5                       #: fibonacci recursion.c:6
        jal fibonacci                   #: fibonacci recursion.c:6
        mv a5, a0                       #: fibonacci recursion.c:6
        add a5, s1, a5                  #: fibonacci recursion.c:6
        j fibonacci$2                   #: fibonacci recursion.c:6
fibonacci$1: lw a5, -20(s0)             #: fibonacci recursion.c:6
fibonacci$2: mv a0, a5                  #: fibonacci recursion.c:7
        lw ra, 28(sp)                   #: fibonacci recursion.c:7
        lw s0, 24(sp)                   #: fibonacci recursion.c:7
        lw s1, 20(sp)                   #: fibonacci recursion.c:7
        addi sp, sp, 32                 #: fibonacci recursion.c:7
        ret                             #: fibonacci recursion.c:7
ackermann: addi sp, sp, -32             #: ackermann recursion.c:10
        sw ra, 28(sp)                   #: ackermann recursion.c:10
        sw s0, 24(sp)                   #: ackermann recursion.c:10
        sw s1, 20(sp)                   #: ackermann recursion.c:10
        addi s0, sp, 32                 #: ackermann recursion.c:10
        sw a0, -20(s0)                  #: ackermann recursion.c:10
        sw a1, -24(s0)                  #: ackermann recursion.c:10
        lw a5, -20(s0)                  #: ackermann recursion.c:11
        bnez a5, ackermann$1            #: ackermann recursion.c:11
        lw a5, -24(s0)                  #: ackermann recursion.c:12
        addi a5, a5, 1                  #: ackermann recursion.c:12
        j ackermann$4                   #: ackermann recursion.c:12
ackermann$1: lw a5, -20(s0)             #: ackermann recursion.c:13
        addi s1, a5, -1                 #: ackermann recursion.c:13
        lw a5, -24(s0)                  #: ackermann recursion.c:13
        beqz a5, ackermann$2            #: ackermann recursion.c:13
        lw a5, -24(s0)                  #: ackermann recursion.c:13
        addi a5, a5, -1                 #: ackermann recursion.c:13
        mv a1, a5                       #: ackermann recursion.c:13
        lw a0, -20(s0)                  #: ackermann recursion.c:13
        jal ackermann                   #: ackermann recursion.c:13
        mv a5, a0                       #: ackermann recursion.c:13
        j ackermann$3                   #: ackermann recursion.c:13
ackermann$2: li a5, 1                   #: ackermann recursion.c:13
ackermann$3: mv a1, a5                  #: ackermann recursion.c:13
        mv a0, s1                       #: ackermann recursion.c:13
        jal ackermann                   #: ackermann recursion.c:13
        mv a5, a0                       #: ackermann recursion.c:13
ackermann$4: mv a0, a5                  #: ackermann recursion.c:14
        lw ra, 28(sp)                   #: ackermann recursion.c:14
        lw s0, 24(sp)                   #: ackermann recursion.c:14
        lw s1, 20(sp)                   #: ackermann recursion.c:14
        addi sp, sp, 32                 #: ackermann recursion.c:14
        ret                             #: ackermann recursion.c:14
main:   addi sp, sp, -16                #: main recursion.c:17
        sw ra, 12(sp)                   #: main recursion.c:17
        sw s0, 8(sp)                    #: main recursion.c:17
        sw s1, 4(sp)                    #: main recursion.c:17
        addi s0, sp, 16                 #: main recursion.c:17
        li a0, 15                       #: main recursion.c:18
        jal fibonacci                   #: main recursion.c:18
        mv a4, a0                       #: main recursion.c:18
        li a5, 1000                     #: main recursion.c:18
        mul s1, a4, a5                  #: main recursion.c:18
        li a1, 9                        #: main recursion.c:18
        li a0, 2                        #: main recursion.c:18
        jal ackermann                   #: main recursion.c:18
        mv a5, a0                       #: main recursion.c:18
        add a5, s1, a5                  #: main recursion.c:18
        mv a0, a5                       #: main recursion.c:19
        lw ra, 12(sp)                   #: main recursion.c:19
        lw s0, 8(sp)                    #: main recursion.c:19
        lw s1, 4(sp)                    #: main recursion.c:19
        addi sp, sp, 16                 #: main recursion.c:19
        ret                             #: main recursion.c:19
