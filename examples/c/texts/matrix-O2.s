# matrix-O2.elf: 336 bytes of text, 0 of data, 6912 of zeros
_start: auipc sp, 0x10                  #: _start start.S:5
        mv sp, sp                       #: _start start.S:5
        jal main                        #: _start start.S:6
        ebreak                          #: _start start.S:7
main:   lui a7, 0x80001                 #: main matrix.c:10
        lui t3, 0x80001                 #: main matrix.c:10
        addi sp, sp, -16                #: main matrix.c:9
        addi t5, a7, 848                #: main matrix.c:9
        addi t1, t3, -1456              #: main matrix.c:9
        sw s0, 12(sp)                   #: main matrix.c:9
        addi t3, t3, -1456              #: main matrix.c:9
        addi a7, a7, 848                #: main matrix.c:9
        li t4, 0                        #: main matrix.c:9
        li a0, 0                        #: main matrix.c:10
        li a6, 168                      #: main matrix.c:11
        li t6, 72                       #: main matrix.c:10
main$1: mv a2, t3                       #: main matrix.c:9
        mv a3, a7                       #: main matrix.c:9
        mv a4, t4                       #: main matrix.c:9
        li a5, 0                        #: main matrix.c:9
main$2: xor a1, a5, a0                  #: main matrix.c:13
        sw a4, 0(a3)                    #: main matrix.c:12
        sw a1, 0(a2)                    #: main matrix.c:13
        addi a5, a5, 7                  #: main matrix.c:11
        addi a4, a4, -5                 #: main matrix.c:11
        addi a3, a3, 4                  #: main matrix.c:11
        addi a2, a2, 4                  #: main matrix.c:11
        bne a5, a6, main$2              #: main matrix.c:11
        addi t4, t4, 3                  #: main matrix.c:10
        addi a0, a0, 1                  #: main matrix.c:10
        addi a7, a7, 96                 #: main matrix.c:10
        addi t3, t3, 96                 #: main matrix.c:10
        bne t4, t6, main$1              #: main matrix.c:10
        lui t4, 0x80000                 #: main matrix.c:10
        lui a5, 0x1                     #: main matrix.c:10
        addi a4, a5, -1792              #: main matrix.c:10
        addi t2, t4, 336                #: main matrix.c:10
        addi a5, a5, -1696              #: main matrix.c:10
        lui t3, 0xfffff                 #: main matrix.c:10
        add t6, t1, a4                  #: main matrix.c:10
        add s0, t2, a4                  #: main matrix.c:10
        addi t4, t4, 336                #: main matrix.c:10
        li t0, 0                        #: main matrix.c:15
        add t1, t1, a5                  #: main matrix.c:15
        addi t3, t3, 1792               #: main matrix.c:15
main$3: sh1add a7, t0, t0               #: main matrix.c:16
        slli a7, a7, 0x5                #: main matrix.c:16
        mv a0, t6                       #: main matrix.c:16
        add a7, a7, t5                  #: main matrix.c:16
        mv a6, t4                       #: main matrix.c:17
main$4: add a5, a0, t3                  #: main matrix.c:18
        mv a3, a7                       #: main matrix.c:10
        li a2, 0                        #: main matrix.c:17
main$5: lw a4, 0(a3)                    #: main matrix.c:19
        lw a1, 0(a5)                    #: main matrix.c:19
        addi a5, a5, 96                 #: main matrix.c:18
        addi a3, a3, 4                  #: main matrix.c:18
        mul a4, a4, a1                  #: main matrix.c:19
        add a2, a2, a4                  #: main matrix.c:19
        bne a5, a0, main$5              #: main matrix.c:18
        sw a2, 0(a6)                    #: main matrix.c:20
        addi a0, a5, 4                  #: main matrix.c:16
        addi a6, a6, 4                  #: main matrix.c:16
        bne a0, t1, main$4              #: main matrix.c:16
        addi t4, t4, 96                 #: main matrix.c:15
        addi t0, t0, 1                  #: main matrix.c:15
        bne t4, s0, main$3              #: main matrix.c:15
        lui a1, 0x1                     #: main matrix.c:15
        addi a1, a1, -1696              #: main matrix.c:15
        addi a2, t2, 96                 #: main matrix.c:15
        add a1, t2, a1                  #: main matrix.c:15
        li a0, 0                        #: main matrix.c:22
main$6: addi a5, a2, -96                #: main matrix.c:24
main$7: lw a4, 0(a5)                    #: main matrix.c:25
        slli a3, a0, 0x5                #: main matrix.c:25
        sub a0, a3, a0                  #: main matrix.c:25
        addi a5, a5, 4                  #: main matrix.c:24
        add a0, a0, a4                  #: main matrix.c:25
        bne a5, a2, main$7              #: main matrix.c:24
        addi a2, a5, 96                 #: main matrix.c:23
        bne a1, a2, main$6              #: main matrix.c:23
        lw s0, 12(sp)                   #: main matrix.c:27
        addi sp, sp, 16                 #: main matrix.c:27
        ret                             #: main matrix.c:27
        .data
product:
        .zero 2304
right:
        .zero 2304
left:
        .zero 2304
