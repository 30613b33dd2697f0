# Divides 7 and -7 by 2 and -2, and writes each quotient and remainder on a line.
        .set    noreorder
        .set    noat
        .set    nomacro
        .globl  start
start:
        lui     $8, 0xBF00              # the device registers: CONOUT at 0, HALT at 20
        addiu   $16, $0, 7              # the dividend
        addiu   $17, $0, 2              # the divisor
        addiu   $18, $0, 4              # lines to write
line:
        div     $0, $16, $17
        mflo    $19                     # the quotient
        mfhi    $20                     # the remainder
        addu    $4, $19, $0
        nop                             # an R2000 wants two instructions here
        mult    $19, $17                # quotient * divisor + remainder is the dividend
        mflo    $21
        add     $21, $21, $20
        bne     $21, $16, wrong
        nop
        jal     number
        nop
        addiu   $9, $0, ' '
        sw      $9, 0($8)
        bgezal  $0, number
        addu    $4, $20, $0
        addiu   $9, $0, '\n'
        sw      $9, 0($8)
        sub     $16, $0, $16            # the other sign: of the dividend each time,
        addiu   $18, $18, -1
        andi    $10, $18, 1
        bne     $10, $0, next
        nop
        sub     $17, $0, $17            # of the divisor every second time
next:
        bgtz    $18, line
        nop
        sw      $0, 20($8)              # halts with 0
wrong:
        sw      $21, 20($8)             # halts with what was wrong

# Writes the number in $4, from -9 to 9.
number:
        bgez    $4, digit
        addiu   $9, $0, '-'
        sw      $9, 0($8)
        subu    $4, $0, $4
digit:
        addiu   $4, $4, '0'
        jr      $31
        sw      $4, 0($8)
