; Adds a signed amount to a number, within a floor and a ceiling.
;
; Record, 8 bytes or more: the first 8 are the number. A number is 8 bytes, the lowest first.
; Argument, 24 bytes: the amount, the floor and the ceiling. An amount of 2^63 or more is negative:
; it represents that number minus 2^64, so 2^64 - 1 subtracts 1.
;
; Code 1: added. The reply word is the new number, from the floor to the ceiling.
; Code 0: the sum would be below the floor or above the ceiling. The reply word is the unchanged
; number.
; Code 4: the record or the argument is too short.

    jlt r2, 8, short        ; R2 is the record's length
    jlt r4, 24, short       ; R4 is the argument's length
    mov r6, r1              ; a call leaves R1 to R5 unset
    ldxdw r7, [r6]          ; the number
    ldxdw r8, [r3]          ; the amount
    ldxdw r9, [r3+8]        ; the floor
    ldxdw r5, [r3+16]       ; the ceiling
    mov r0, -1
    rsh r0, 1               ; the largest amount that is not negative
    jgt r8, r0, down
    add r8, r7
    jlt r8, r7, refuse      ; the sum is past 2^64 - 1
    ja test

down:
    add r8, r7
    jge r8, r7, refuse      ; the sum is below 0

test:
    jlt r8, r9, refuse
    jgt r8, r5, refuse
    stxdw [r6], r8
    mov r1, r8
    call 1                  ; replies the new number
    mov r0, 1               ; save the record
    exit

refuse:
    mov r1, r7
    call 1                  ; replies the number
    mov r0, 0               ; change nothing
    exit

short:
    mov r0, 4               ; change nothing
    exit
