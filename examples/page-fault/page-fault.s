# Stores four letters to two pages that have no entry in the translation lookaside buffer yet, and prints
# what it loads back. The routine at the refill vector makes an entry for each page when it is missed.

        .set    noreorder
        .set    noat

        .text
        .globl  start

# The refill vector: the exception has put the page into EntryHi and the address into BadVAddr.
refill: lui     $26, 0xBF00             # CONOUT
        addiu   $27, $0, '*'
        sw      $27, 0($26)             # a star for each miss
        mfc0    $26, $8                 # BadVAddr
        mfc0    $27, $14                # EPC: the store that missed
        srl     $26, $26, 12
        sll     $26, $26, 12            # the page ..
        lui     $1, 0x0002
        or      $26, $26, $1            # .. goes to the frame at 0x00020000 plus its address
        ori     $26, $26, 0x0600        # D and V: it may be written, and it is valid
        mtc0    $26, $2                 # EntryLo
        tlbwr                           # EntryHi and EntryLo to a random entry
        jr      $27                     # back to the store, which is run again
        rfe                             # and to the mode before

        .org    0x100
start:  lui     $8, 0xBF00              # CONOUT
        addiu   $9, $0, 0x1FFE          # two bytes before the end of page 1
        addiu   $10, $0, 'a'
        addiu   $11, $0, 'e'
letter: sb      $10, 0($9)              # misses at 0x1FFE and at 0x2000
        lbu     $12, 0($9)
        addiu   $10, $10, 1
        sw      $12, 0($8)
        bne     $10, $11, letter
        addiu   $9, $9, 1
        addiu   $9, $0, '\n'
        sw      $9, 0($8)
        sw      $0, 20($8)              # HALT
