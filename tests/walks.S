// The hart's program of walks.py: it waits for a count at MAIL, carries out as many requests from MAIL + 32 on, puts
// each result in its request's place, and clears the count. A request has vsatp, hgatp, an address and a word to write,
// 0 for a read; a result has mcause, the word that was read, mtval2 and mtinst.
#define MAIL_PAGES 0x100
#define VSSTATUS 0x200
#define VSATP 0x280
#define MTINST 0x34a
#define MTVAL2 0x34b
#define HSTATUS 0x600
#define HGATP 0x680

    auipc   s0, MAIL_PAGES
1:  auipc   t0, %pcrel_hi(trap)
    addi    t0, t0, %pcrel_lo(1b)
    csrw    mtvec, t0
    // One MiB of memory from 0x80000000 on may be reached.
    lui     t0, 0x20020
    addi    t0, t0, -1
    csrw    pmpaddr0, t0
    addi    t0, zero, 0x1f
    csrw    pmpcfg0, t0
    csrw    HSTATUS, zero
    csrw    VSSTATUS, zero

wait:
    ld      t0, 0(s0)
    beqz    t0, wait
    addi    s1, s0, 32

request:
    ld      a0, 0(s1)
    csrw    VSATP, a0
    ld      a0, 8(s1)
    csrw    HGATP, a0
    .word   0x62000073              // hfence.gvma
    .word   0x22000073              // hfence.vvma
    ld      a1, 16(s1)
    ld      a2, 24(s1)
    addi    a3, zero, 0
    addi    a4, zero, 0
    csrw    MTVAL2, zero
    csrw    MTINST, zero
    bnez    a2, write
    .word   0x6c05c773              // hlv.d a4, (a1)
    j       end
write:
    .word   0x6ec5c073              // hsv.d a2, (a1)
end:
    sd      a3, 0(s1)
    sd      a4, 8(s1)
    csrr    a5, MTVAL2
    sd      a5, 16(s1)
    csrr    a5, MTINST
    sd      a5, 24(s1)
    addi    s1, s1, 32
    addi    t0, t0, -1
    bnez    t0, request
    sd      zero, 0(s0)
    j       wait

trap:
    csrr    a3, mcause
    csrr    a5, mepc
    addi    a5, a5, 4
    csrw    mepc, a5
    mret
