# Waits for a key, and prints a dot after each 64 rounds of waiting. The key's interrupt prints the key and halts
# with the number of rounds. A round has four cycles, and the dot takes two more.

        .set    noreorder
        .set    noat

        .text
        .globl  start

        .org    0x80                    # the vector of interrupts
        lui     $8, 0xBF00              # the devices
        lw      $9, 4($8)               # CONIN
        addiu   $10, $0, '\n'
        sw      $9, 0($8)               # CONOUT
        sw      $10, 0($8)
        sw      $16, 20($8)             # HALT

        .org    0x100
start:  lui     $8, 0xBF00
        addiu   $11, $0, '.'
        ori     $9, $0, 0x0401          # interrupts are on, of the keyboard alone
        mtc0    $9, $12                 # Status
wait:   addiu   $16, $16, 1
        andi    $10, $16, 63
        bne     $10, $0, wait
        nop
        j       wait
        sw      $11, 0($8)              # in the delay slot: the dot
