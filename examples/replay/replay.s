# A race of two keys. The tick of the timer is the starting shot, which is printed as `!`. A key is printed
# with `-` where it comes before the shot, and with `+` behind it. The program ends after two keys, and its
# halt value is the number of false starts.

        .set    noreorder
        .set    noat

        .text
        .globl  start

start:  lui     $8, 0xBF00              # the devices
        addiu   $9, $0, 0               # the ticks that were seen
        addiu   $10, $0, 2              # the keys that are to come
        addiu   $15, $0, 0              # the false starts
wait:   lw      $12, 4($8)              # CONIN: a key, or 0x100
        lw      $11, 12($8)             # TICKS
        sltiu   $13, $12, 0x100         # whether a key came
        beq     $11, $9, key
        nop
        addu    $9, $11, $0             # the shot
        addiu   $14, $0, '!'
        sw      $14, 0($8)
key:    beq     $13, $0, wait
        nop
        sw      $12, 0($8)
        bne     $9, $0, good
        addiu   $14, $0, '+'            # in the delay slot: it stays where the branch is taken
        addiu   $14, $0, '-'
        addiu   $15, $15, 1
good:   sw      $14, 0($8)
        addiu   $10, $10, -1
        bne     $10, $0, wait
        nop
        addiu   $14, $0, '\n'
        sw      $14, 0($8)              # CONOUT
        sw      $15, 20($8)             # HALT
