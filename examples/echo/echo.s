# Prints each key that comes, and halts at a full stop. The halt value is the number of keys.
        .set    noreorder
        .set    noat
        .text
        .globl  start
start:  lui     $8, 0xBF00              # the devices
        addiu   $10, $0, 0              # the keys so far
        addiu   $11, $0, '.'
wait:   lw      $9, 4($8)               # CONIN: a key, or 0x100
        nop                             # the word comes one instruction later
        andi    $12, $9, 0x100
        bne     $12, $0, wait
        nop
        sw      $9, 0($8)               # CONOUT
        bne     $9, $11, wait
        addiu   $10, $10, 1             # in the delay slot: it counts the full stop too
        addiu   $9, $0, '\n'
        sw      $9, 0($8)
        sw      $10, 20($8)             # HALT
