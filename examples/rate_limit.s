; A rate limit: a number of calls in a window of time.
;
; Record, 16 bytes: the beginning of the window, and the number of calls that it has admitted. A
; number is 8 bytes, the lowest first. Zeros are a window that began at 0.
; Argument, 16 bytes: the duration of a window, and the number of calls that it admits.
;
; Code 1: admitted. The reply word is the number of further calls that the window admits.
; Code 0: not admitted. The reply word is the remaining time of the window. If no window is open and
; the argument admits no calls, it is the duration of a window, and no window begins.
; Code 4: the record or the argument is too short.
;
; If no window is open, a call begins one at the time of the run. So it does after the end of the
; last window, and also if that window began later than now: a caller whose clock is a little behind
; begins a new window too, and the count starts at 0 again.

    jlt r2, 16, short       ; R2 is the record's length
    jlt r4, 16, short       ; R4 is the argument's length
    mov r6, r1              ; a call leaves R1 to R5 unset
    ldxdw r7, [r3]          ; the duration of a window
    ldxdw r8, [r3+8]        ; the number of calls that it admits
    call 2                  ; the time
    mov r9, r0
    ldxdw r1, [r6]          ; the beginning of the window
    jlt r9, r1, begin       ; the clock went back
    sub r0, r1              ; the time since then
    jlt r0, r7, count       ; the window is still open

begin:
    stxdw [r6], r9          ; a new window begins
    stdw [r6+8], 0
    mov r0, 0

count:
    ldxdw r2, [r6+8]        ; the number of admitted calls
    jge r2, r8, full
    add r2, 1
    stxdw [r6+8], r2
    sub r8, r2
    mov r1, r8
    call 1                  ; replies the number of further calls
    mov r0, 1               ; save the record
    exit

full:
    sub r7, r0
    mov r1, r7
    call 1                  ; replies the remaining time
    mov r0, 0               ; change nothing
    exit

short:
    mov r0, 4               ; change nothing
    exit
