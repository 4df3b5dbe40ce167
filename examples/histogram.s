; A histogram of eight counters. The argument's first byte selects the counter to increment.
;
; Record, 64 bytes: eight numbers of 8 bytes each, the lowest byte first.
; Argument, 1 byte or more: the lowest three bits of the first byte are the index of the number.
;
; Code 1: it was counted. The reply word is the number's new value.
; Code 4: the record or the argument is too short.

    jlt r2, 64, short       ; R2 is the record's length
    jlt r4, 1, short        ; R4 is the argument's length
    ldxb r6, [r3]
    and r6, 7               ; 0 to 7
    lsh r6, 3               ; 0 to 56, in steps of 8
    add r1, r6              ; so these 8 bytes are in the record
    ldxdw r7, [r1]
    add r7, 1
    stxdw [r1], r7
    mov r1, r7
    call 1                  ; replies the new value
    mov r0, 1               ; save the record
    exit

short:
    mov r0, 4               ; change nothing
    exit
