# Prints a line that stands in global memory, a byte a load, again and again.
        .set    noreorder
        .set    noat
        .text
        .globl  start
start:  lui     $8, 0xBF00              # the devices
again:  lui     $9, 0x8400              # global memory
next:   lbu     $10, 0($9)
        addiu   $9, $9, 1
        beq     $10, $0, again
        nop
        j       next
        sw      $10, 0($8)              # CONOUT
        .data
        .asciz  "still here\n"
