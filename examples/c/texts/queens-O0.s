# queens-O0.elf: 452 bytes of text, 0 of data, 32 of zeros
_start: auipc sp, 0x10                  #: _start start.S:5
        mv sp, sp                       #: _start start.S:5
        jal main                        #: _start start.S:6
        ebreak                          #: _start start.S:7
is_free: addi sp, sp, -48               #: is_free queens.c:7
        sw s0, 44(sp)                   #: is_free queens.c:7
        addi s0, sp, 48                 #: is_free queens.c:7
        sw a0, -36(s0)                  #: is_free queens.c:7
        sw a1, -40(s0)                  #: is_free queens.c:7
        sw zero, -20(s0)                #: is_free queens.c:8
        j is_free$4                     #: is_free queens.c:8
is_free$1: lui a5, 0x80000              #: is_free queens.c:9
        addi a4, a5, 464                #: is_free queens.c:9
        lw a5, -20(s0)                  #: is_free queens.c:9
        slli a5, a5, 0x2                #: is_free queens.c:9
        add a5, a4, a5                  #: is_free queens.c:9
        lw a4, 0(a5)                    #: is_free queens.c:9
        lw a5, -40(s0)                  #: is_free queens.c:9
        sub a5, a4, a5                  #: is_free queens.c:9
        sw a5, -24(s0)                  #: is_free queens.c:9
        lw a5, -24(s0)                  #: is_free queens.c:10
        beqz a5, is_free$2              #: is_free queens.c:10
        lw a4, -36(s0)                  #: is_free queens.c:10
        lw a5, -20(s0)                  #: is_free queens.c:10
        sub a5, a4, a5                  #: is_free queens.c:10
        lw a4, -24(s0)                  #: is_free queens.c:10
        beq a4, a5, is_free$2           #: is_free queens.c:10
        lw a4, -20(s0)                  #: is_free queens.c:10
        lw a5, -36(s0)                  #: is_free queens.c:10
        sub a5, a4, a5                  #: is_free queens.c:10
        lw a4, -24(s0)                  #: is_free queens.c:10
        bne a4, a5, is_free$3           #: is_free queens.c:10
is_free$2: li a5, 0                     #: is_free queens.c:11
        j is_free$5                     #: is_free queens.c:11
is_free$3: lw a5, -20(s0)               #: is_free queens.c:8
        addi a5, a5, 1                  #: is_free queens.c:8
        sw a5, -20(s0)                  #: is_free queens.c:8
is_free$4: lw a4, -20(s0)               #: is_free queens.c:8
        lw a5, -36(s0)                  #: is_free queens.c:8
        blt a4, a5, is_free$1           #: is_free queens.c:8
        li a5, 1                        #: is_free queens.c:13
is_free$5: mv a0, a5                    #: is_free queens.c:14
        lw s0, 44(sp)                   #: is_free queens.c:14
        addi sp, sp, 48                 #: is_free queens.c:14
        ret                             #: is_free queens.c:14
place:  addi sp, sp, -48                #: place queens.c:17
        sw ra, 44(sp)                   #: place queens.c:17
        sw s0, 40(sp)                   #: place queens.c:17
        addi s0, sp, 48                 #: place queens.c:17
        sw a0, -36(s0)                  #: place queens.c:17
        sw a1, -40(s0)                  #: place queens.c:17
        lw a4, -36(s0)                  #: place queens.c:18
        lw a5, -40(s0)                  #: place queens.c:18
        bne a4, a5, place$1             #: place queens.c:18
        li a5, 1                        #: place queens.c:19
        j place$5                       #: place queens.c:19
place$1: sw zero, -20(s0)               #: place queens.c:20
        sw zero, -24(s0)                #: place queens.c:21
        j place$4                       #: place queens.c:21
place$2: lw a1, -24(s0)                 #: place queens.c:22
        lw a0, -36(s0)                  #: place queens.c:22
        jal is_free                     #: place queens.c:22
        mv a5, a0                       #: place queens.c:22
        beqz a5, place$3                #: place queens.c:22
        lui a5, 0x80000                 #: place queens.c:23
        addi a4, a5, 464                #: place queens.c:23
        lw a5, -36(s0)                  #: place queens.c:23
        slli a5, a5, 0x2                #: place queens.c:23
        add a5, a4, a5                  #: place queens.c:23
        lw a4, -24(s0)                  #: place queens.c:23
        sw a4, 0(a5)                    #: place queens.c:23
        lw a5, -36(s0)                  #: place queens.c:24
        addi a5, a5, 1                  #: place queens.c:24
        lw a1, -40(s0)                  #: place queens.c:24
        mv a0, a5                       #: place queens.c:24
        jal place                       #: place queens.c:24
        mv a4, a0                       #: place queens.c:24
        lw a5, -20(s0)                  #: place queens.c:24
        add a5, a5, a4                  #: place queens.c:24
        sw a5, -20(s0)                  #: place queens.c:24
place$3: lw a5, -24(s0)                 #: place queens.c:21
        addi a5, a5, 1                  #: place queens.c:21
        sw a5, -24(s0)                  #: place queens.c:21
place$4: lw a4, -24(s0)                 #: place queens.c:21
        lw a5, -40(s0)                  #: place queens.c:21
        blt a4, a5, place$2             #: place queens.c:21
        lw a5, -20(s0)                  #: place queens.c:26
place$5: mv a0, a5                      #: place queens.c:27
        lw ra, 44(sp)                   #: place queens.c:27
        lw s0, 40(sp)                   #: place queens.c:27
        addi sp, sp, 48                 #: place queens.c:27
        ret                             #: place queens.c:27
main:   addi sp, sp, -16                #: main queens.c:30
        sw ra, 12(sp)                   #: main queens.c:30
        sw s0, 8(sp)                    #: main queens.c:30
        sw s1, 4(sp)                    #: main queens.c:30
        addi s0, sp, 16                 #: main queens.c:30
        li a1, 5                        #: main queens.c:31
        li a0, 0                        #: main queens.c:31
        jal place                       #: main queens.c:31
        mv a5, a0                       #: main queens.c:31
        slli s1, a5, 0x10               #: main queens.c:31
        li a1, 6                        #: main queens.c:31
        li a0, 0                        #: main queens.c:31
        jal place                       #: main queens.c:31
        mv a5, a0                       #: main queens.c:31
        or a5, s1, a5                   #: main queens.c:31
        mv a0, a5                       #: main queens.c:32
        lw ra, 12(sp)                   #: main queens.c:32
        lw s0, 8(sp)                    #: main queens.c:32
        lw s1, 4(sp)                    #: main queens.c:32
        addi sp, sp, 16                 #: main queens.c:32
        ret                             #: main queens.c:32
        .data
board:
        .zero 32
