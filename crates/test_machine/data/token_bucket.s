; A token bucket, counted in time: it fills as time passes, and each call takes a cost.
;
; Record, 8 bytes or more: the first 8 are the time at which the bucket is full again. A number is 8
; bytes, the lowest first. Zeros are a full bucket.
; Argument, 16 bytes: the cost and the capacity, both as the time that it takes to fill that amount.
; With one token every 5 seconds and room for 20, a cost of 2 tokens is 10, and the capacity is 100.
;
; Code 1: taken. The reply word is the amount that is left.
; Code 0: there is too little, and the reply word is the time to wait until there is enough. It is
; 2^64 - 1 if the cost is above the capacity. If the bucket would be full only at 2^64 or later,
; nothing is taken either, now or after the wait.
; Code 4: the record or the argument is too short.
;
; A time ahead of the clock is accepted: if a clock was wrong, delete the key.

    jlt r2, 8, short        ; R2 is the record's length
    jlt r4, 16, short       ; R4 is the argument's length
    mov r6, r1              ; a call leaves R1 to R5 unset
    ldxdw r7, [r3]          ; the cost
    ldxdw r8, [r3+8]        ; the capacity
    call 2                  ; the time
    ldxdw r9, [r6]          ; the time at which the bucket is full
    jge r9, r0, take
    mov r9, r0              ; it is full already

take:
    jgt r7, r8, never
    sub r8, r7
    mov r1, r9
    sub r1, r0              ; the missing amount
    jgt r1, r8, wait
    sub r8, r1              ; the amount left
    add r7, r9              ; the new time at which it is full
    jlt r7, r9, never
    stxdw [r6], r7
    mov r1, r8
    call 1                  ; replies the amount left
    mov r0, 1               ; save the record
    exit

wait:
    sub r1, r8
    call 1                  ; replies the time to wait
    mov r0, 0               ; change nothing
    exit

never:
    mov r1, -1
    call 1
    mov r0, 0               ; change nothing
    exit

short:
    mov r0, 4               ; change nothing
    exit
