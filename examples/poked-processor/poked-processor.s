# Prints the squares of 1 to 9, and halts with the last. The square is kept in register 16.
        .set    noreorder
        .set    noat
        .text
        .globl  start
start:  lui     $8, 0xBF00              # the devices
        addiu   $16, $0, 0              # the square
        addiu   $17, $0, 1              # the odd number that leads to the next square
        addiu   $18, $0, 19
        addiu   $19, $0, 10
square: addu    $16, $16, $17
        divu    $0, $16, $19
        mflo    $9                      # the tens
        beq     $9, $0, ones
        mfhi    $10                     # the ones
        addiu   $9, $9, '0'
        sw      $9, 0($8)               # CONOUT
ones:   addiu   $10, $10, '0'
        sw      $10, 0($8)
        addiu   $17, $17, 2
        bne     $17, $18, comma
        addiu   $9, $0, '\n'
        sw      $9, 0($8)
        sw      $16, 20($8)             # HALT
comma:  addiu   $9, $0, ' '
        j       square
        sw      $9, 0($8)
