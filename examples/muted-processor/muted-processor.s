# Counts down from 5 to 0 with a pause before each number, and halts.
        .set    noreorder
        .set    noat
        .text
        .globl  start
start:  lui     $8, 0xBF00              # the devices
        addiu   $16, $0, '5'
        addiu   $17, $0, '/'            # the character before 0
count:  addiu   $11, $0, 100
pause:  addiu   $11, $11, -1            # 300 instructions in local memory
        bne     $11, $0, pause
        nop
        sw      $16, 0($8)              # CONOUT
        addiu   $16, $16, -1
        bne     $16, $17, count
        nop
        addiu   $9, $0, '\n'
        sw      $9, 0($8)
        sw      $0, 20($8)              # HALT
