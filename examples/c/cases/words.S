# One of each form that objdump writes otherwise than the language has it.
 .globl _start
_start: la sp, x
 call f
 jalr a5
 jr 4(t0)
 jalr t1, 8(t2)
 jalr t0, 0(t1)
 fence rw,w
 fence.tso
 fence
 fence.i
 csrr a0, mstatus
 csrwi mscratch, 5
 csrrs a0, 0xf14, x0
 csrr a1, 0x7c0
 rdcycle a0
 csrr a1, minstret
 csrw mcycle, a1
 csrrwi a1, mscratch, 3
 unimp
 zext.b a0, a1
 sgtu a0,a1,a2
 sgtz a0,a1
 lui a0, 0xfffff
 auipc a0, 0xfffff
 sltiu a0, a1, -1
 slti a0, a1, 5
 sh2add a0,a1,a2
 wfi
 mret
f: ret
 .word 0xffffffff
 .data
 .byte 1
x: .half 3
y: .word x
