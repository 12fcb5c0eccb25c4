; Sends the truth until the last round, and then the opposite.
; A commander is truthful, unless the bound is 0 and the first round is the last. A lieutenant relays what he took until the
; last round, the bound plus 1. Then he sends the opposite of the first order that he took about every label.
; Beyond the bound he breaks IC2: with bound 2, two of four generals turn the order attack into retreat.
; With signed messages he sends nothing.
        ldw r7, [r1+32]         ; the first order that he took
        xor r7, 1               ; its opposite
        ldw r8, [r1+16]         ; the round
        ldw r9, [r1+4]          ; the bound: the last round is one more
        mov r6, 0               ; the receiver, counted up below
        mov r1, r6              ; once for each receiver
        call honest             ; the truth
        jle r8, r9, +3
        mov r1, r6              ; in the last round the opposite instead
        mov r2, r7
        call sway
        add r6, 1
; the same for the next receivers: whoever does not exist gets nothing
        mov r1, r6
        call honest
        jle r8, r9, +3
        mov r1, r6
        mov r2, r7
        call sway
        add r6, 1
        mov r1, r6
        call honest
        jle r8, r9, +3
        mov r1, r6
        mov r2, r7
        call sway
        add r6, 1
        mov r1, r6
        call honest
        jle r8, r9, +3
        mov r1, r6
        mov r2, r7
        call sway
        add r6, 1
        mov r1, r6
        call honest
        jle r8, r9, +3
        mov r1, r6
        mov r2, r7
        call sway
        add r6, 1
        mov r1, r6
        call honest
        jle r8, r9, +3
        mov r1, r6
        mov r2, r7
        call sway
        add r6, 1
        mov r1, r6
        call honest
        jle r8, r9, +3
        mov r1, r6
        mov r2, r7
        call sway
        add r6, 1
        mov r1, r6
        call honest
        jle r8, r9, +3
        mov r1, r6
        mov r2, r7
        call sway
        add r6, 1
        mov r1, r6
        call honest
        jle r8, r9, +3
        mov r1, r6
        mov r2, r7
        call sway
        add r6, 1
        mov r1, r6
        call honest
        jle r8, r9, +3
        mov r1, r6
        mov r2, r7
        call sway
        add r6, 1
        mov r1, r6
        call honest
        jle r8, r9, +3
        mov r1, r6
        mov r2, r7
        call sway
        add r6, 1
        mov r1, r6
        call honest
        jle r8, r9, +3
        mov r1, r6
        mov r2, r7
        call sway
        add r6, 1
        mov r1, r6
        call honest
        jle r8, r9, +3
        mov r1, r6
        mov r2, r7
        call sway
        add r6, 1
        exit
