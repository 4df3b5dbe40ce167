; Compare and set: a number is replaced if it is the expected one.
;
; Record, 8 bytes or more: the first 8 are the number, the lowest byte first.
; Argument, 16 bytes: the expected number, and the new one.
;
; Code 1: it is replaced. Code 0: it is another number. The reply word is the number before the run.
; Code 4: the record or the argument is too short. The reply word is 0.

    jlt r2, 8, short        ; R2 is the record's length
    jlt r4, 16, short       ; R4 is the argument's length
    mov r6, r1              ; a call leaves R1 to R5 unset
    ldxdw r7, [r3]          ; the expected number
    ldxdw r8, [r3+8]        ; the new number
    ldxdw r9, [r6]          ; the present number
    mov r1, r9
    call 1                  ; replies the present number
    jne r9, r7, leave
    stxdw [r6], r8
    mov r0, 1               ; save the record
    exit

leave:
    mov r0, 0               ; change nothing
    exit

short:
    mov r0, 4               ; change nothing
    exit
