; Sends everybody the order attack, whatever he received.
; He does so as commander in round 1, and as a lieutenant in each later round, about every label that he relays.
; Beyond the bound he breaks IC2: two of four generals turn the order retreat into attack. One of three cannot, since a
; tie of attack and retreat counts as retreat.
; With signed messages he sends nothing.
        mov r7, 1               ; attack
        mov r6, 0               ; the receiver, counted up below
        mov r1, r6              ; once for each receiver
        mov r2, r7
        call sway               ; this order, in every label
        add r6, 1
; the same for the next receivers: whoever does not exist gets nothing
        mov r1, r6
        mov r2, r7
        call sway
        add r6, 1
        mov r1, r6
        mov r2, r7
        call sway
        add r6, 1
        mov r1, r6
        mov r2, r7
        call sway
        add r6, 1
        mov r1, r6
        mov r2, r7
        call sway
        add r6, 1
        mov r1, r6
        mov r2, r7
        call sway
        add r6, 1
        mov r1, r6
        mov r2, r7
        call sway
        add r6, 1
        mov r1, r6
        mov r2, r7
        call sway
        add r6, 1
        mov r1, r6
        mov r2, r7
        call sway
        add r6, 1
        mov r1, r6
        mov r2, r7
        call sway
        add r6, 1
        mov r1, r6
        mov r2, r7
        call sway
        add r6, 1
        mov r1, r6
        mov r2, r7
        call sway
        add r6, 1
        mov r1, r6
        mov r2, r7
        call sway
        add r6, 1
        exit
