# Writes a text that lies in a segment of its own, and halts with the number of its bytes, which it counts
# in a word that the file has no bytes for.
        .set    noreorder
        .set    noat
        .set    nomacro
        .globl  start

        .text
start:
        lui     $8, 0xBF00              # the device registers: CONOUT at 0, HALT at 20
        lui     $9, 0x8002              # the second segment: the text, and behind it the counter
next:
        lb      $10, 0($9)
        lui     $11, 0x8002             # the load's delay slot
        beq     $10, $0, done
        lw      $12, 16($11)            # the counter starts as 0
        addiu   $9, $9, 1
        addiu   $12, $12, 1
        sw      $12, 16($11)
        beq     $0, $0, next
        sw      $10, 0($8)
done:
        nop
        sw      $12, 20($8)

        .data
text:   .ascii  "two segments\n\0"
        .bss
        .align  4
count:  .space  4
