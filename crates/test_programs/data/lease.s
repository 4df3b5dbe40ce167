; A lease: its owner and its end.
;
; Record, 16 bytes: the number of the owner, and the time at which the lease ends. A number is
; 8 bytes, the lowest first. Zeros are a lease that has ended.
; Argument, 16 bytes: the number of the caller, and the duration from now; 0 releases the lease. The
; program trusts the number of the caller; `call 4` would return the number of the session.
;
; Code 1: the caller has the lease, new or renewed, until the time in the reply word.
; Code 2: the lease was released, or had ended, and its pair is deleted.
; Code 0: another owner has the lease until the time in the reply word.
; Code 4: the record or the argument is too short.
;
; A lease ends at 2^64 - 1 at the latest: at that time all have ended, and anyone may take one.

    jlt r2, 16, short       ; R2 is the record's length
    jlt r4, 16, short       ; R4 is the argument's length
    mov r6, r1              ; a call leaves R1 to R5 unset
    ldxdw r7, [r3]          ; the caller
    ldxdw r8, [r3+8]        ; the duration
    call 2                  ; the time
    mov r9, r0
    ldxdw r1, [r6+8]        ; the end of the lease
    jle r1, r9, take        ; it has ended
    ldxdw r2, [r6]          ; the owner
    jeq r2, r7, take        ; the owner may renew or release it
    call 1                  ; replies the end
    mov r0, 0
    exit

take:
    jeq r8, 0, give_back
    add r8, r9              ; the new end
    jge r8, r9, write
    mov r8, -1              ; overflow: the last time

write:
    stxdw [r6], r7
    stxdw [r6+8], r8
    mov r1, r8
    call 1                  ; replies the end
    mov r0, 1               ; save the record
    exit

give_back:
    mov r0, 2               ; delete the pair
    exit

short:
    mov r0, 4               ; change nothing
    exit
