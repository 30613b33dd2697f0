# Prints the digits from 0 to 9, three times over, and counts to 4,096 before each. Register 9 has the digit.

        .set    noreorder
        .set    noat

        .text
        .globl  start

start:  lui     $8, 0xBF00              # the devices
        addiu   $12, $0, 3              # the rows that are to come
        addiu   $13, $0, '9' + 1
row:    addiu   $9, $0, '0'
digit:  addiu   $10, $0, 4096
pause:  addiu   $10, $10, -1
        bne     $10, $0, pause
        nop
        sw      $9, 0($8)               # CONOUT
        addiu   $9, $9, 1
        bne     $9, $13, digit
        nop
        addiu   $9, $0, '\n'
        addiu   $12, $12, -1
        bne     $12, $0, row
        sw      $9, 0($8)               # in the delay slot: the line feed
        sw      $0, 20($8)              # HALT
