; A counting semaphore: at most a number of holders at a time.
;
; Record, 8 bytes or more: the first 8 are the number of holders. A number is 8 bytes, the lowest
; first.
; Argument, 16 bytes: 0 to release a permit, anything else to take one; and the number of permits.
;
; Code 1: taken or released. The reply word is the new number of holders.
; Code 0: no permit is free, or there is no holder to release one. The reply word is the number of
; holders.
; Code 4: the record or the argument is too short.
;
; A permit does not end by itself: its holder has to release it.

    jlt r2, 8, short        ; R2 is the record's length
    jlt r4, 16, short       ; R4 is the argument's length
    mov r6, r1              ; a call leaves R1 to R5 unset
    ldxdw r7, [r6]          ; the number of holders
    ldxdw r8, [r3]          ; 0 releases
    ldxdw r9, [r3+8]        ; the number of permits
    jeq r8, 0, give_back
    jge r7, r9, refuse      ; no permit is free
    add r7, 1
    ja write

give_back:
    jeq r7, 0, refuse       ; nobody has one
    sub r7, 1

write:
    stxdw [r6], r7
    mov r1, r7
    call 1                  ; replies the number of holders
    mov r0, 1               ; save the record
    exit

refuse:
    mov r1, r7
    call 1                  ; replies the number of holders
    mov r0, 0               ; change nothing
    exit

short:
    mov r0, 4               ; change nothing
    exit
