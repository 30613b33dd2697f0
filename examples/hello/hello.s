# Writes "hi" and a line feed to the console, and halts. The eight words of hello.elf's segment are these.
        .set    noreorder
        .set    noat
        .globl  start
start:
        lui     $8, 0xBF00              # the device registers: CONOUT at 0, HALT at 20
        addiu   $9, $0, 'h'
        sw      $9, 0($8)
        addiu   $9, $0, 'i'
        sw      $9, 0($8)
        addiu   $9, $0, '\n'
        sw      $9, 0($8)
        sw      $0, 20($8)              # the halt value is 0
