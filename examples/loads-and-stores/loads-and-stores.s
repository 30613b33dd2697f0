# Runs every load and store at every byte place that it may have, and prints one checksum of what they leave:
# x becomes 3 x + r for each result r, and its eight digits are printed as letters from `a` to `p`.
#
# With --defsym LINUX=1 the same instructions print by system calls of Linux, for an emulator of user programs.

        .set    noreorder
        .set    noat

        .macro  mix reg                 # x in r16
        sll     $9, $16, 1
        addu    $16, $16, $9
        addu    $16, $16, \reg
        .endm

        .macro  loads row, place
        \row    $8, \place($17)
        nop
        mix     $8
        .endm

        .macro  merges row, place       # over a word that is there
        addu    $8, $18, $0
        \row    $8, \place($17)
        nop
        mix     $8
        .endm

        .macro  stores row, place       # and the whole word after it
        \row    $18, \place($19)
        lw      $8, 0($19)
        nop
        mix     $8
        .endm

        .macro  emit                    # the byte in r8
        .ifdef  LINUX
        sb      $8, 0($20)
        addiu   $20, $20, 1
        .else
        sw      $8, 0($20)
        .endif
        .endm

        .macro  digit shift
        srl     $8, $16, \shift
        andi    $8, $8, 15
        addiu   $8, $8, 'a'
        emit
        .endm

        .text
        .globl  start
start:  lui     $17, %hi(words)
        addiu   $17, $17, %lo(words)
        addiu   $19, $17, 4
        lui     $18, 0x9ABC
        ori     $18, $18, 0xDEF1
        addu    $16, $0, $0
        .ifdef  LINUX
        lui     $20, %hi(text)
        addiu   $20, $20, %lo(text)
        .else
        lui     $20, 0xBF00             # CONOUT
        .endif

        .irp    place, 0, 1, 2, 3
        loads   lb, \place
        loads   lbu, \place
        merges  lwl, \place
        merges  lwr, \place
        .endr
        .irp    place, 0, 2
        loads   lh, \place
        loads   lhu, \place
        stores  sh, \place
        .endr
        .irp    place, 0, 1, 2, 3
        stores  sb, \place
        stores  swl, \place
        stores  swr, \place
        .endr

        .irp    shift, 28, 24, 20, 16, 12, 8, 4, 0
        digit   \shift
        .endr
        addiu   $8, $0, '\n'
        emit
        .ifdef  LINUX
        addiu   $2, $0, 4004            # write
        addiu   $4, $0, 1
        lui     $5, %hi(text)
        addiu   $5, $5, %lo(text)
        addiu   $6, $0, 9
        syscall
        addiu   $2, $0, 4001            # exit
        addu    $4, $0, $0
        syscall
        .else
        sw      $0, 20($20)             # HALT
        .endif

        .ifdef  LINUX
        .data
        .endif
words:  .word   0x80F17F02, 0xC3D4E5F6
text:   .space  12
