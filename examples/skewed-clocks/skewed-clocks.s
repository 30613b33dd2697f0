# Counts in register 16 until a key interrupts it. Then it prints the key and the count, and halts with the
# count. No load or store leaves the processor before that.

        .set    noreorder
        .set    noat

        .text
        .globl  start

        .org    0x80                    # the vector of interrupts
        lui     $8, 0xBF00              # the devices
        lw      $9, 4($8)               # CONIN
        addiu   $10, $0, 28             # the place of the first digit
        sw      $9, 0($8)               # CONOUT
        addiu   $9, $0, ' '
        sw      $9, 0($8)
digit:  srlv    $9, $16, $10
        andi    $9, $9, 15
        sltiu   $11, $9, 10
        bne     $11, $0, print
        addiu   $9, $9, '0'
        addiu   $9, $9, 'a' - '0' - 10
print:  sw      $9, 0($8)
        bne     $10, $0, digit
        addiu   $10, $10, -4
        addiu   $9, $0, '\n'
        sw      $9, 0($8)
        sw      $16, 20($8)             # HALT

        .org    0x100
start:  ori     $8, $0, 0x0401          # interrupts are on, of the keyboard alone
        mtc0    $8, $12                 # Status
count:  j       count
        addiu   $16, $16, 1             # in the delay slot
