# Where a program begins, and the two vectors of its exceptions.
#
# At the start all registers are 0, memory beyond the program's file is 0, and interrupts are off.

        .set    noreorder
        .set    noat

        .section .vectors, "ax"

# A miss of the translation lookaside buffer below 0x80000000.
refill:
        j       exception
        nop

# Every other exception.
        .org    0x80
general:
        j       exception
        nop

        .text

        .globl  start
start:
        lui     $sp, %hi(stack_top - 16)
        addiu   $sp, $sp, %lo(stack_top - 16)
        jal     main
        nop
        jal     halt
        move    $4, $2

# Saves what the program had, calls exception_serve, and goes back. The frame lies on the program's stack,
# above 16 bytes that the called function may use.
#define FRAME   16
#define HI      (FRAME + 128)
#define LO      (FRAME + 132)
#define STATUS  (FRAME + 136)
#define CAUSE   (FRAME + 140)
#define BAD     (FRAME + 144)
#define PLACE   (FRAME + 148)
#define SIZE    (FRAME + 152)

#define EACH(what) \
        what(1);  what(2);  what(3);  what(4);  what(5);  what(6);  what(7);  what(8); \
        what(9);  what(10); what(11); what(12); what(13); what(14); what(15); what(16); \
        what(17); what(18); what(19); what(20); what(21); what(22); what(23); what(24); \
        what(25); what(28); what(30); what(31)
#define SAVE(number)    sw $number, FRAME + 4 * number($sp)
#define RESTORE(number) lw $number, FRAME + 4 * number($sp)

exception:
        addiu   $sp, $sp, -SIZE
        EACH(SAVE)
        addiu   $26, $sp, SIZE
        sw      $26, FRAME + 4 * 29($sp)
        mfhi    $8
        mflo    $9
        sw      $8, HI($sp)
        sw      $9, LO($sp)
        mfc0    $8, $12
        mfc0    $9, $13
        mfc0    $10, $8
        mfc0    $11, $14
        sw      $8, STATUS($sp)
        sw      $9, CAUSE($sp)
        sw      $10, BAD($sp)
        sw      $11, PLACE($sp)
        jal     exception_serve
        addiu   $4, $sp, FRAME
        lw      $8, HI($sp)
        lw      $9, LO($sp)
        mthi    $8
        mtlo    $9
        lw      $26, STATUS($sp)
        lw      $27, PLACE($sp)
        mtc0    $26, $12
        EACH(RESTORE)
        lw      $sp, FRAME + 4 * 29($sp)
        jr      $27
        rfe
