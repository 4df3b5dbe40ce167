; Counts: the record's first 8 bytes are a number, the lowest byte first, and get one more.
; Code 1: it was counted. Code 4: the record has fewer bytes, and stays as it is.

    jlt r2, 8, short        ; R2 is the record's length
    ldxdw r6, [r1+0]        ; R1 points to the record
    add r6, 1
    stxdw [r1+0], r6
    mov r0, 1               ; save the record
    exit

short:
    mov r0, 4               ; change nothing
    exit
