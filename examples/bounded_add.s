; Adds the argument's first number to the record's, unless the sum would be above the argument's
; second number. A number is 8 bytes, the lowest first.
;
; Code 1: it was added. Code 0: the sum would be above the bound. Code 4: the record has fewer than 8
; bytes, or the argument has fewer than 16. With codes 0 and 4 the record is unchanged.

    jlt r2, 8, short        ; R2 is the record's length
    jlt r4, 16, short       ; R4 is the argument's length
    ldxdw r6, [r1]          ; the record's number
    ldxdw r7, [r3]          ; the amount
    ldxdw r8, [r3+8]        ; the bound
    jgt r6, r8, leave       ; the number is above the bound already
    sub r8, r6              ; the room below the bound
    jgt r7, r8, leave
    add r6, r7
    stxdw [r1], r6
    mov r0, 1               ; save the record
    exit

leave:
    mov r0, 0               ; change nothing
    exit

short:
    mov r0, 4               ; change nothing
    exit
