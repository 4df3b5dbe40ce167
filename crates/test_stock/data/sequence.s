; A sequence: only newer messages replace a message, in any order of arrival.
;
; Record, 24 bytes: the number of the stored message, and 16 bytes of text. The number has 8 bytes,
; the lowest first. Zeros are no message.
; Argument, 24 bytes: the number and the text of the new message. Numbers begin at 1.
;
; Code 1: the message is newer, and is stored. Code 0: it is old. The reply word is the number of the
; message that is stored after the run.
; Code 4: the record or the argument is too short.

    jlt r2, 24, short       ; R2 is the record's length
    jlt r4, 24, short       ; R4 is the argument's length
    ldxdw r6, [r1]          ; the number of the stored message
    ldxdw r7, [r3]          ; the number of the new message
    jle r7, r6, old
    mov r2, r3              ; from the argument
    mov r3, 24              ; 24 bytes
    call 5                  ; copied to the record at R1
    mov r1, r7
    call 1                  ; replies the number of the stored one
    mov r0, 1               ; save the record
    exit

old:
    mov r1, r6
    call 1                  ; replies the number of the stored one
    mov r0, 0               ; change nothing
    exit

short:
    mov r0, 4               ; change nothing
    exit
