# crc32-O0.elf: 792 bytes of text, 98 of data, 1038 of zeros
_start: auipc sp, 0x10                  #: _start start.S:5
        mv sp, sp                       #: _start start.S:5
        jal main                        #: _start start.S:6
        ebreak                          #: _start start.S:7
shift:  addi sp, sp, -48                #: shift crc32.c:8
        sw s0, 44(sp)                   #: shift crc32.c:8
        addi s0, sp, 48                 #: shift crc32.c:8
        sw a0, -36(s0)                  #: shift crc32.c:8
        sw zero, -20(s0)                #: shift crc32.c:9
        j shift$4                       #: shift crc32.c:9
shift$1: lw a5, -36(s0)                 #: shift crc32.c:10
        andi a5, a5, 1                  #: shift crc32.c:10
        beqz a5, shift$2                #: shift crc32.c:10
        lw a5, -36(s0)                  #: shift crc32.c:10
        srli a4, a5, 0x1                #: shift crc32.c:10
        lui a5, 0xedb88                 #: shift crc32.c:10
        addi a5, a5, 800                #: shift crc32.c:10
        xor a5, a4, a5                  #: shift crc32.c:10
        j shift$3                       #: shift crc32.c:10
shift$2: lw a5, -36(s0)                 #: shift crc32.c:10
        srli a5, a5, 0x1                #: shift crc32.c:10
shift$3: sw a5, -36(s0)                 #: shift crc32.c:10
        lw a5, -20(s0)                  #: shift crc32.c:9
        addi a5, a5, 1                  #: shift crc32.c:9
        sw a5, -20(s0)                  #: shift crc32.c:9
shift$4: lw a4, -20(s0)                 #: shift crc32.c:9
        li a5, 7                        #: shift crc32.c:9
        bge a5, a4, shift$1             #: shift crc32.c:9
        lw a5, -36(s0)                  #: shift crc32.c:11
        mv a0, a5                       #: shift crc32.c:12
        lw s0, 44(sp)                   #: shift crc32.c:12
        addi sp, sp, 48                 #: shift crc32.c:12
        ret                             #: shift crc32.c:12
by_bits: addi sp, sp, -48               #: by_bits crc32.c:15
        sw ra, 44(sp)                   #: by_bits crc32.c:15
        sw s0, 40(sp)                   #: by_bits crc32.c:15
        addi s0, sp, 48                 #: by_bits crc32.c:15
        sw a0, -36(s0)                  #: by_bits crc32.c:15
        sw a1, -40(s0)                  #: by_bits crc32.c:15
        li a5, -1                       #: by_bits crc32.c:16
        sw a5, -20(s0)                  #: by_bits crc32.c:16
        sw zero, -24(s0)                #: by_bits crc32.c:17
        j by_bits$2                     #: by_bits crc32.c:17
by_bits$1: lw a4, -36(s0)               #: by_bits crc32.c:18
        lw a5, -24(s0)                  #: by_bits crc32.c:18
        add a5, a4, a5                  #: by_bits crc32.c:18
        lbu a5, 0(a5)                   #: by_bits crc32.c:18
        mv a4, a5                       #: by_bits crc32.c:18
        lw a5, -20(s0)                  #: by_bits crc32.c:18
        xor a5, a4, a5                  #: by_bits crc32.c:18
        mv a0, a5                       #: by_bits crc32.c:18
        jal shift                       #: by_bits crc32.c:18
        sw a0, -20(s0)                  #: by_bits crc32.c:18
        lw a5, -24(s0)                  #: by_bits crc32.c:17
        addi a5, a5, 1                  #: by_bits crc32.c:17
        sw a5, -24(s0)                  #: by_bits crc32.c:17
by_bits$2: lw a4, -24(s0)               #: by_bits crc32.c:17
        lw a5, -40(s0)                  #: by_bits crc32.c:17
        bltu a4, a5, by_bits$1          #: by_bits crc32.c:17
        lw a5, -20(s0)                  #: by_bits crc32.c:19
        not a5, a5                      #: by_bits crc32.c:19
        mv a0, a5                       #: by_bits crc32.c:20
        lw ra, 44(sp)                   #: by_bits crc32.c:20
        lw s0, 40(sp)                   #: by_bits crc32.c:20
        addi sp, sp, 48                 #: by_bits crc32.c:20
        ret                             #: by_bits crc32.c:20
by_table: addi sp, sp, -48              #: by_table crc32.c:23
        sw s0, 44(sp)                   #: by_table crc32.c:23
        addi s0, sp, 48                 #: by_table crc32.c:23
        sw a0, -36(s0)                  #: by_table crc32.c:23
        sw a1, -40(s0)                  #: by_table crc32.c:23
        li a5, -1                       #: by_table crc32.c:24
        sw a5, -20(s0)                  #: by_table crc32.c:24
        sw zero, -24(s0)                #: by_table crc32.c:25
        j by_table$2                    #: by_table crc32.c:25
by_table$1: lw a5, -20(s0)              #: by_table crc32.c:26
        srli a4, a5, 0x8                #: by_table crc32.c:26
        lw a3, -36(s0)                  #: by_table crc32.c:26
        lw a5, -24(s0)                  #: by_table crc32.c:26
        add a5, a3, a5                  #: by_table crc32.c:26
        lbu a5, 0(a5)                   #: by_table crc32.c:26
        mv a3, a5                       #: by_table crc32.c:26
        lw a5, -20(s0)                  #: by_table crc32.c:26
        xor a5, a3, a5                  #: by_table crc32.c:26
        andi a5, a5, 255                #: by_table crc32.c:26
        lui a3, 0x80000                 #: by_table crc32.c:26
        addi a3, a3, 912                #: by_table crc32.c:26
        slli a5, a5, 0x2                #: by_table crc32.c:26
        add a5, a3, a5                  #: by_table crc32.c:26
        lw a5, 0(a5)                    #: by_table crc32.c:26
        xor a5, a4, a5                  #: by_table crc32.c:26
        sw a5, -20(s0)                  #: by_table crc32.c:26
        lw a5, -24(s0)                  #: by_table crc32.c:25
        addi a5, a5, 1                  #: by_table crc32.c:25
        sw a5, -24(s0)                  #: by_table crc32.c:25
by_table$2: lw a4, -24(s0)              #: by_table crc32.c:25
        lw a5, -40(s0)                  #: by_table crc32.c:25
        bltu a4, a5, by_table$1         #: by_table crc32.c:25
        lw a5, -20(s0)                  #: by_table crc32.c:27
        not a5, a5                      #: by_table crc32.c:27
        mv a0, a5                       #: by_table crc32.c:28
        lw s0, 44(sp)                   #: by_table crc32.c:28
        addi sp, sp, 48                 #: by_table crc32.c:28
        ret                             #: by_table crc32.c:28
main:   addi sp, sp, -32                #: main crc32.c:31
        sw ra, 28(sp)                   #: main crc32.c:31
        sw s0, 24(sp)                   #: main crc32.c:31
        addi s0, sp, 32                 #: main crc32.c:31
        sw zero, -20(s0)                #: main crc32.c:34
        j main$2                        #: main crc32.c:34
main$1: lw a0, -20(s0)                  #: main crc32.c:35
        jal shift                       #: main crc32.c:35
        mv a3, a0                       #: main crc32.c:35
        lui a5, 0x80000                 #: main crc32.c:35
        addi a4, a5, 912                #: main crc32.c:35
        lw a5, -20(s0)                  #: main crc32.c:35
        slli a5, a5, 0x2                #: main crc32.c:35
        add a5, a4, a5                  #: main crc32.c:35
        sw a3, 0(a5)                    #: main crc32.c:35
        lw a5, -20(s0)                  #: main crc32.c:34
        addi a5, a5, 1                  #: main crc32.c:34
        sw a5, -20(s0)                  #: main crc32.c:34
main$2: lw a4, -20(s0)                  #: main crc32.c:34
        li a5, 255                      #: main crc32.c:34
        bgeu a5, a4, main$1             #: main crc32.c:34
        lui a5, 0x80000                 #: main crc32.c:36
        addi a0, a5, 800                #: main crc32.c:36
        jal strlen                      #: main crc32.c:36
        mv a5, a0                       #: main crc32.c:36
        mv a1, a5                       #: main crc32.c:36
        lui a5, 0x80000                 #: main crc32.c:36
        addi a0, a5, 800                #: main crc32.c:36
        jal by_bits                     #: main crc32.c:36
        mv a4, a0                       #: main crc32.c:36
        lui a5, 0xcbf44                 #: main crc32.c:36
        addi a5, a5, -1754              #: main crc32.c:36
        bne a4, a5, main$3              #: main crc32.c:36
        lui a5, 0x80000                 #: main crc32.c:36
        addi a0, a5, 800                #: main crc32.c:36
        jal strlen                      #: main crc32.c:36
        mv a5, a0                       #: main crc32.c:36
        mv a1, a5                       #: main crc32.c:36
        lui a5, 0x80000                 #: main crc32.c:36
        addi a0, a5, 800                #: main crc32.c:36
        jal by_table                    #: main crc32.c:36
        mv a4, a0                       #: main crc32.c:36
        lui a5, 0xcbf44                 #: main crc32.c:36
        addi a5, a5, -1754              #: main crc32.c:36
        beq a4, a5, main$4              #: main crc32.c:36
main$3: li a5, -1                       #: main crc32.c:37
        j main$6                        #: main crc32.c:37
main$4: lui a5, 0x80000                 #: main crc32.c:38
        addi a0, a5, 812                #: main crc32.c:38
        jal strlen                      #: main crc32.c:38
        mv a5, a0                       #: main crc32.c:38
        mv a1, a5                       #: main crc32.c:38
        lui a5, 0x80000                 #: main crc32.c:38
        addi a0, a5, 812                #: main crc32.c:38
        jal by_bits                     #: main crc32.c:38
        sw a0, -24(s0)                  #: main crc32.c:38
        lui a5, 0x80000                 #: main crc32.c:39
        addi a0, a5, 812                #: main crc32.c:39
        jal strlen                      #: main crc32.c:39
        mv a5, a0                       #: main crc32.c:39
        mv a1, a5                       #: main crc32.c:39
        lui a5, 0x80000                 #: main crc32.c:39
        addi a0, a5, 812                #: main crc32.c:39
        jal by_table                    #: main crc32.c:39
        mv a4, a0                       #: main crc32.c:39
        lw a5, -24(s0)                  #: main crc32.c:39
        bne a5, a4, main$5              #: main crc32.c:39
        lw a5, -24(s0)                  #: main crc32.c:39
        j main$6                        #: main crc32.c:39
main$5: li a5, -1                       #: main crc32.c:39
main$6: mv a0, a5                       #: main crc32.c:40
        lw ra, 28(sp)                   #: main crc32.c:40
        lw s0, 24(sp)                   #: main crc32.c:40
        addi sp, sp, 32                 #: main crc32.c:40
        ret                             #: main crc32.c:40
strlen: addi sp, sp, -48                #: strlen library.c:31
        sw s0, 44(sp)                   #: strlen library.c:31
        addi s0, sp, 48                 #: strlen library.c:31
        sw a0, -36(s0)                  #: strlen library.c:31
        sw zero, -20(s0)                #: strlen library.c:32
        j strlen$2                      #: strlen library.c:33
strlen$1: lw a5, -20(s0)                #: strlen library.c:34
        addi a5, a5, 1                  #: strlen library.c:34
        sw a5, -20(s0)                  #: strlen library.c:34
strlen$2: lw a4, -36(s0)                #: strlen library.c:33
        lw a5, -20(s0)                  #: strlen library.c:33
        add a5, a4, a5                  #: strlen library.c:33
        lbu a5, 0(a5)                   #: strlen library.c:33
        bnez a5, strlen$1               #: strlen library.c:33
        lw a5, -20(s0)                  #: strlen library.c:35
        mv a0, a5                       #: strlen library.c:36
        lw s0, 44(sp)                   #: strlen library.c:36
        addi sp, sp, 48                 #: strlen library.c:36
        ret                             #: strlen library.c:36
        .data
digits.1:
        .word 0x34333231
        .word 0x38373635
        .word 0x39
text.0:
        .word 0x20656854
        .word 0x63697571
        .word 0x7262206b
        .word 0x206e776f
        .word 0x20786f66
        .word 0x706d756a
        .word 0x766f2073
        .word 0x74207265
        .word 0x6c206568
        .word 0x20797a61
        .word 0x2e676f64
        .word 0x63615020
        .word 0x796d206b
        .word 0x786f6220
        .word 0x74697720
        .word 0x69662068
        .word 0x64206576
        .word 0x6e657a6f
        .word 0x71696c20
        .word 0x20726f75
        .word 0x7367756a
        .byte 0x2e
        .byte 0x0
        .zero 14
table:
        .zero 1024
