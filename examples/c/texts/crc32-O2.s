# crc32-O2.elf: 456 bytes of text, 98 of data, 1038 of zeros
_start: auipc sp, 0x10                  #: _start start.S:5
        mv sp, sp                       #: _start start.S:5
        jal main                        #: _start start.S:6
        ebreak                          #: _start start.S:7
by_bits: beqz a1, by_bits$5             #: by_bits crc32.c:17
        lui a2, 0xedb88                 #: by_bits crc32.c:10
        mv a3, a0                       #: by_bits crc32.c:10
        add a1, a0, a1                  #: by_bits crc32.c:10
        addi a2, a2, 800                #: by_bits crc32.c:10
        li a0, -1                       #: by_bits crc32.c:16
by_bits$1: lbu a4, 0(a3)                #: by_bits crc32.c:18
        li a5, 8                        #: by_bits crc32.c:18
        xor a0, a0, a4                  #: by_bits crc32.c:18
by_bits$2: andi a4, a0, 1               #: by_bits crc32.c:10
        addi a5, a5, -1                 #: by_bits crc32.c:9
        srli a0, a0, 0x1                #: by_bits crc32.c:10
        beqz a4, by_bits$3              #: by_bits crc32.c:10
        xor a0, a0, a2                  #: by_bits crc32.c:10
by_bits$3: bnez a5, by_bits$2           #: by_bits crc32.c:9
        addi a3, a3, 1                  #: by_bits crc32.c:17
        bne a1, a3, by_bits$1           #: by_bits crc32.c:17
by_bits$4: not a0, a0                   #: by_bits crc32.c:20
        ret                             #: by_bits crc32.c:20
by_bits$5: li a0, -1                    #: by_bits crc32.c:16
        j by_bits$4                     #: by_bits crc32.c:16
by_table: beqz a1, by_table$3           #: by_table crc32.c:25
        lui a2, 0x80000                 #: by_table crc32.c:25
        add a1, a0, a1                  #: by_table crc32.c:25
        li a4, -1                       #: by_table crc32.c:24
        addi a2, a2, 576                #: by_table crc32.c:24
by_table$1: lbu a5, 0(a0)               #: by_table crc32.c:26
        srli a3, a4, 0x8                #: by_table crc32.c:26
        addi a0, a0, 1                  #: by_table crc32.c:25
        xor a5, a5, a4                  #: by_table crc32.c:26
        andi a5, a5, 255                #: by_table crc32.c:26
        sh2add a5, a5, a2               #: by_table crc32.c:26
        lw a4, 0(a5)                    #: by_table crc32.c:26
        xor a4, a3, a4                  #: by_table crc32.c:26
        bne a1, a0, by_table$1          #: by_table crc32.c:25
by_table$2: not a0, a4                  #: by_table crc32.c:28
        ret                             #: by_table crc32.c:28
by_table$3: li a4, -1                   #: by_table crc32.c:24
        j by_table$2                    #: by_table crc32.c:24
main:   addi sp, sp, -16                #: main crc32.c:31
        lui a0, 0x80000                 #: main crc32.c:31
        lui a2, 0xedb88                 #: main crc32.c:10
        sw ra, 12(sp)                   #: main crc32.c:31
        sw s0, 8(sp)                    #: main crc32.c:31
        sw s1, 4(sp)                    #: main crc32.c:31
        sw s2, 0(sp)                    #: main crc32.c:31
        addi a0, a0, 576                #: main crc32.c:31
        li a1, 0                        #: main crc32.c:34
        addi a2, a2, 800                #: main crc32.c:10
        li a6, 256                      #: main crc32.c:34
main$1: mv a5, a1                       #: main crc32.c:34
        li a4, 8                        #: main crc32.c:34
main$2: andi a3, a5, 1                  #: main crc32.c:10
        addi a4, a4, -1                 #: main crc32.c:9
        srli a5, a5, 0x1                #: main crc32.c:10
        beqz a3, main$3                 #: main crc32.c:10
        xor a5, a5, a2                  #: main crc32.c:10
main$3: bnez a4, main$2                 #: main crc32.c:9
        sw a5, 0(a0)                    #: main crc32.c:35
        addi a1, a1, 1                  #: main crc32.c:34
        addi a0, a0, 4                  #: main crc32.c:34
        bne a1, a6, main$1              #: main crc32.c:34
        lui s1, 0x80000                 #: main crc32.c:36
        addi a0, s1, 464                #: main crc32.c:36
        jal strlen                      #: main crc32.c:36
        mv a1, a0                       #: main crc32.c:36
        addi a0, s1, 464                #: main crc32.c:36
        jal by_bits                     #: main crc32.c:36
        lui a5, 0xcbf44                 #: main crc32.c:36
        addi a5, a5, -1754              #: main crc32.c:36
        mv s2, a0                       #: main crc32.c:36
        addi s0, s1, 464                #: main crc32.c:36
        bne a0, a5, main$5              #: main crc32.c:36
        addi a0, s1, 464                #: main crc32.c:36
        jal strlen                      #: main crc32.c:36
        mv a1, a0                       #: main crc32.c:36
        addi a0, s1, 464                #: main crc32.c:36
        jal by_table                    #: main crc32.c:36
        bne a0, s2, main$5              #: main crc32.c:36
        addi s0, s0, 12                 #: main crc32.c:38
        mv a0, s0                       #: main crc32.c:38
        jal strlen                      #: main crc32.c:38
        mv a1, a0                       #: main crc32.c:38
        mv a0, s0                       #: main crc32.c:38
        jal by_bits                     #: main crc32.c:38
        mv s1, a0                       #: main crc32.c:38
        mv a0, s0                       #: main crc32.c:39
        jal strlen                      #: main crc32.c:39
        mv a1, a0                       #: main crc32.c:39
        mv a0, s0                       #: main crc32.c:39
        jal by_table                    #: main crc32.c:39
        bne a0, s1, main$5              #: main crc32.c:39
main$4: lw ra, 12(sp)                   #: main crc32.c:40
        lw s0, 8(sp)                    #: main crc32.c:40
        lw s1, 4(sp)                    #: main crc32.c:40
        lw s2, 0(sp)                    #: main crc32.c:40
        addi sp, sp, 16                 #: main crc32.c:40
        ret                             #: main crc32.c:40
main$5: li a0, -1                       #: main crc32.c:37
        j main$4                        #: main crc32.c:37
strlen: lbu a5, 0(a0)                   #: strlen library.c:33
        mv a4, a0                       #: strlen library.c:31
        li a0, 0                        #: strlen library.c:32
        beqz a5, strlen$2               #: strlen library.c:33
strlen$1: addi a0, a0, 1                #: strlen library.c:34
        add a5, a4, a0                  #: strlen library.c:33
        lbu a5, 0(a5)                   #: strlen library.c:33
        bnez a5, strlen$1               #: strlen library.c:33
        ret                             #: strlen library.c:33
strlen$2: ret                           #: strlen library.c:36
        .data
digits.1:
        .word 0x34333231
        .word 0x38373635
        .word 0x39
text.0:
        .word 0x20656854
        .word 0x63697571
        .word 0x7262206b
        .word 0x206e776f
        .word 0x20786f66
        .word 0x706d756a
        .word 0x766f2073
        .word 0x74207265
        .word 0x6c206568
        .word 0x20797a61
        .word 0x2e676f64
        .word 0x63615020
        .word 0x796d206b
        .word 0x786f6220
        .word 0x74697720
        .word 0x69662068
        .word 0x64206576
        .word 0x6e657a6f
        .word 0x71696c20
        .word 0x20726f75
        .word 0x7367756a
        .byte 0x2e
        .byte 0x0
        .zero 14
table:
        .zero 1024
