# queens-O2.elf: 332 bytes of text, 0 of data, 32 of zeros
_start: auipc sp, 0x10                  #: _start start.S:5
        mv sp, sp                       #: _start start.S:5
        jal main                        #: _start start.S:6
        ebreak                          #: _start start.S:7
place.part.0: addi sp, sp, -48          #: place.part.0 queens.c:16
        sw s3, 28(sp)                   #: place.part.0 queens.c:16
        lui s3, 0x80000                 #: place.part.0 queens.c:16
        sw s0, 40(sp)                   #: place.part.0 queens.c:16
        sw s1, 36(sp)                   #: place.part.0 queens.c:16
        sw s2, 32(sp)                   #: place.part.0 queens.c:16
        sw s4, 24(sp)                   #: place.part.0 queens.c:16
        sw s5, 20(sp)                   #: place.part.0 queens.c:16
        sw s6, 16(sp)                   #: place.part.0 queens.c:16
        sw s7, 12(sp)                   #: place.part.0 queens.c:16
        addi s3, s3, 336                #: place.part.0 queens.c:16
        sw ra, 44(sp)                   #: place.part.0 queens.c:16
        mv s2, a0                       #: place.part.0 queens.c:16
        mv s1, a1                       #: place.part.0 queens.c:16
        li s5, 0                        #: place.part.0 queens.c:20
        li s0, 0                        #: place.part.0 queens.c:21
        neg s4, a0                      #: place.part.0 queens.c:21
        addi s6, a0, 1                  #: place.part.0 queens.c:24
        sh2add s7, a0, s3               #: place.part.0 queens.c:23
        blez s2, place.part.0$8         #: place.part.0 queens.c:8
place.part.0$1: mv a4, s3               #: place.part.0 queens.c:8
        mv a5, s4                       #: place.part.0 queens.c:8
        j place.part.0$3                #: place.part.0 queens.c:8
place.part.0$2: beq a2, a6, place.part.0$4 #: place.part.0 queens.c:10
        beq a2, a5, place.part.0$4      #: place.part.0 queens.c:10
        addi a5, a5, 1                  #: place.part.0 queens.c:8
        beqz a5, place.part.0$6         #: place.part.0 queens.c:8
place.part.0$3: lw a3, 0(a4)            #: place.part.0 queens.c:9
        neg a6, a5                      #: place.part.0 queens.c:10
        addi a4, a4, 4                  #: place.part.0 queens.c:8
        sub a2, a3, s0                  #: place.part.0 queens.c:9
        bne a3, s0, place.part.0$2      #: place.part.0 queens.c:10
place.part.0$4: addi s0, s0, 1          #: place.part.0 queens.c:21
        bne s1, s0, place.part.0$1      #: place.part.0 queens.c:21
place.part.0$5: lw ra, 44(sp)           #: place.part.0 queens.c:27
        lw s0, 40(sp)                   #: place.part.0 queens.c:27
        lw s1, 36(sp)                   #: place.part.0 queens.c:27
        lw s2, 32(sp)                   #: place.part.0 queens.c:27
        lw s3, 28(sp)                   #: place.part.0 queens.c:27
        lw s4, 24(sp)                   #: place.part.0 queens.c:27
        lw s6, 16(sp)                   #: place.part.0 queens.c:27
        lw s7, 12(sp)                   #: place.part.0 queens.c:27
        mv a0, s5                       #: place.part.0 queens.c:27
        lw s5, 20(sp)                   #: place.part.0 queens.c:27
        addi sp, sp, 48                 #: place.part.0 queens.c:27
        ret                             #: place.part.0 queens.c:27
place.part.0$6: sw s0, 0(s7)            #: place.part.0 queens.c:23
        mv a0, s6                       #: place.part.0 queens.c:24
        beq s6, s1, place.part.0$9      #: place.part.0 queens.c:18
place.part.0$7: mv a1, s1               #: place.part.0 queens.c:18
        jal place.part.0                #: place.part.0 queens.c:18
        addi s0, s0, 1                  #: place.part.0 queens.c:21
        add s5, s5, a0                  #: place.part.0 queens.c:24
        beq s1, s0, place.part.0$5      #: place.part.0 queens.c:21
        bgtz s2, place.part.0$1         #: place.part.0 queens.c:8
place.part.0$8: sh2add a5, s2, s3       #: place.part.0 queens.c:23
        addi a0, s2, 1                  #: place.part.0 queens.c:24
        sw s0, 0(a5)                    #: place.part.0 queens.c:23
        j place.part.0$7                #: place.part.0 queens.c:18
place.part.0$9: addi s0, s0, 1          #: place.part.0 queens.c:21
        addi s5, s5, 1                  #: place.part.0 queens.c:24
        bne s6, s0, place.part.0$1      #: place.part.0 queens.c:21
        j place.part.0$5                #: place.part.0 queens.c:21
main:   addi sp, sp, -16                #: main queens.c:30
        li a1, 5                        #: main queens.c:30
        li a0, 0                        #: main queens.c:30
        sw ra, 12(sp)                   #: main queens.c:30
        sw s0, 8(sp)                    #: main queens.c:30
        jal place.part.0                #: main queens.c:30
        mv s0, a0                       #: main queens.c:30
        li a1, 6                        #: main queens.c:18
        li a0, 0                        #: main queens.c:18
        jal place.part.0                #: main queens.c:18
        slli s0, s0, 0x10               #: main queens.c:31
        lw ra, 12(sp)                   #: main queens.c:32
        or a0, s0, a0                   #: main queens.c:32
        lw s0, 8(sp)                    #: main queens.c:32
        addi sp, sp, 16                 #: main queens.c:32
        ret                             #: main queens.c:32
        .data
board:
        .zero 32
