; A lease with a fencing token: an owner, an end, and a number that rises with each new owner.
;
; Record, 24 bytes: the number of the owner, the time at which the lease ends, and the last token.
; A number is 8 bytes, the lowest first. Zeros are a lease that nobody has had.
; Argument, 16 bytes: the number of the caller, and the duration from now; 0 releases the lease.
;
; Code 1: granted, and the reply word is the token; or released or over, and the word is 0.
; Code 0: another owner has the lease until the time in the reply word.
; Code 3: the tokens are used up, after 2^64 - 1 of them.
; Code 4: the record or the argument is too short.
;
; The first token is 1. An owner that renews the lease before its end keeps the token; any other
; grant has a greater one. Send the token with each request to the resource that the lease protects,
; and let the resource refuse every token that is lower than one it has seen.
; A lease ends at 2^64 - 1 at the latest: at that time all have ended, and anyone may take one.

    jlt r2, 24, short       ; R2 is the record's length
    jlt r4, 16, short       ; R4 is the argument's length
    mov r6, r1              ; a call leaves R1 to R5 unset
    ldxdw r7, [r3]          ; the caller
    ldxdw r8, [r3+8]        ; the duration
    call 2                  ; the time
    mov r9, r0
    ldxdw r1, [r6+8]        ; the end of the lease
    jle r1, r9, free        ; it has ended
    ldxdw r2, [r6]          ; the owner
    jeq r2, r7, own         ; the owner may renew or release it
    call 1                  ; replies the end
    mov r0, 0               ; change nothing
    exit

free:
    jeq r8, 0, give_back
    ldxdw r2, [r6+16]       ; the last token
    add r2, 1
    jeq r2, 0, used_up
    stxdw [r6], r7
    stxdw [r6+16], r2
    ja grant

own:
    jeq r8, 0, give_back
    ldxdw r2, [r6+16]       ; the owner's token

grant:
    add r8, r9              ; the new end
    jge r8, r9, write
    mov r8, -1              ; overflow: the last time

write:
    stxdw [r6+8], r8
    mov r1, r2
    call 1                  ; replies the token
    mov r0, 1               ; save the record
    exit

give_back:
    stdw [r6+8], 0          ; the lease is over, and the token stays
    mov r0, 1
    exit

used_up:
    mov r0, 3               ; change nothing
    exit

short:
    mov r0, 4               ; change nothing
    exit
