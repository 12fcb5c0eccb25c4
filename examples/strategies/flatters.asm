; Sends each general what he wants to hear.
; In rounds 1 and 2 he guesses: generals with even numbers want to attack, and the others want to retreat.
; From round 3 on he knows better: each general wants to hear what he himself reported of the commander's order, and hears it
; about every label. (In rounds 4 and 5 that is his report as the first of the others relays it.)
; Beyond the bound he breaks IC1: a commander and a lieutenant who flatter split the two loyal lieutenants of four
; generals, if one has an even number and the other an odd one. He breaks IC2 of three generals.
; With signed messages he sends nothing.
        mov r7, r1              ; the context
        mov r6, 0               ; the receiver, counted up below
        mov r8, 4096            ; where the receiver's reports are: nowhere yet
        ldw r2, [r7+16]         ; the round
        jle r2, 2, begin
        mov r8, 0               ; from round 3 on: at the first label
begin:  ldw r9, [r7+20]         ; how many labels he relays
        ldw r2, [r7+0]          ; how many generals there are
        sub r2, 2
        div r9, r2              ; how many of the labels begin with the same lieutenant
        lsh r9, 2               ; their bytes
        mov r2, r6              ; once for each receiver
        and r2, 1
        xor r2, 1               ; attack, if his number is even
        ldw r3, [r7+8]          ; the traitor himself
        jeq r3, r6, +7
        ldw r3, [r7+12]         ; the commander
        jeq r3, r6, +5
        jgt r8, 4060, +4
        mov r3, r7
        add r3, r8
        ldw r2, [r3+32]         ; what the receiver reported
        add r8, r9              ; the next lieutenant's reports
        mov r1, r6
        call sway               ; this order, in every label
        add r6, 1
; the same for the next receivers: whoever does not exist gets nothing
        mov r2, r6
        and r2, 1
        xor r2, 1
        ldw r3, [r7+8]
        jeq r3, r6, +7
        ldw r3, [r7+12]
        jeq r3, r6, +5
        jgt r8, 4060, +4
        mov r3, r7
        add r3, r8
        ldw r2, [r3+32]
        add r8, r9
        mov r1, r6
        call sway
        add r6, 1
        mov r2, r6
        and r2, 1
        xor r2, 1
        ldw r3, [r7+8]
        jeq r3, r6, +7
        ldw r3, [r7+12]
        jeq r3, r6, +5
        jgt r8, 4060, +4
        mov r3, r7
        add r3, r8
        ldw r2, [r3+32]
        add r8, r9
        mov r1, r6
        call sway
        add r6, 1
        mov r2, r6
        and r2, 1
        xor r2, 1
        ldw r3, [r7+8]
        jeq r3, r6, +7
        ldw r3, [r7+12]
        jeq r3, r6, +5
        jgt r8, 4060, +4
        mov r3, r7
        add r3, r8
        ldw r2, [r3+32]
        add r8, r9
        mov r1, r6
        call sway
        add r6, 1
        mov r2, r6
        and r2, 1
        xor r2, 1
        ldw r3, [r7+8]
        jeq r3, r6, +7
        ldw r3, [r7+12]
        jeq r3, r6, +5
        jgt r8, 4060, +4
        mov r3, r7
        add r3, r8
        ldw r2, [r3+32]
        add r8, r9
        mov r1, r6
        call sway
        add r6, 1
        mov r2, r6
        and r2, 1
        xor r2, 1
        ldw r3, [r7+8]
        jeq r3, r6, +7
        ldw r3, [r7+12]
        jeq r3, r6, +5
        jgt r8, 4060, +4
        mov r3, r7
        add r3, r8
        ldw r2, [r3+32]
        add r8, r9
        mov r1, r6
        call sway
        add r6, 1
        mov r2, r6
        and r2, 1
        xor r2, 1
        ldw r3, [r7+8]
        jeq r3, r6, +7
        ldw r3, [r7+12]
        jeq r3, r6, +5
        jgt r8, 4060, +4
        mov r3, r7
        add r3, r8
        ldw r2, [r3+32]
        add r8, r9
        mov r1, r6
        call sway
        add r6, 1
        mov r2, r6
        and r2, 1
        xor r2, 1
        ldw r3, [r7+8]
        jeq r3, r6, +7
        ldw r3, [r7+12]
        jeq r3, r6, +5
        jgt r8, 4060, +4
        mov r3, r7
        add r3, r8
        ldw r2, [r3+32]
        add r8, r9
        mov r1, r6
        call sway
        add r6, 1
        mov r2, r6
        and r2, 1
        xor r2, 1
        ldw r3, [r7+8]
        jeq r3, r6, +7
        ldw r3, [r7+12]
        jeq r3, r6, +5
        jgt r8, 4060, +4
        mov r3, r7
        add r3, r8
        ldw r2, [r3+32]
        add r8, r9
        mov r1, r6
        call sway
        add r6, 1
        mov r2, r6
        and r2, 1
        xor r2, 1
        ldw r3, [r7+8]
        jeq r3, r6, +7
        ldw r3, [r7+12]
        jeq r3, r6, +5
        jgt r8, 4060, +4
        mov r3, r7
        add r3, r8
        ldw r2, [r3+32]
        add r8, r9
        mov r1, r6
        call sway
        add r6, 1
        mov r2, r6
        and r2, 1
        xor r2, 1
        ldw r3, [r7+8]
        jeq r3, r6, +7
        ldw r3, [r7+12]
        jeq r3, r6, +5
        jgt r8, 4060, +4
        mov r3, r7
        add r3, r8
        ldw r2, [r3+32]
        add r8, r9
        mov r1, r6
        call sway
        add r6, 1
        mov r2, r6
        and r2, 1
        xor r2, 1
        ldw r3, [r7+8]
        jeq r3, r6, +7
        ldw r3, [r7+12]
        jeq r3, r6, +5
        jgt r8, 4060, +4
        mov r3, r7
        add r3, r8
        ldw r2, [r3+32]
        add r8, r9
        mov r1, r6
        call sway
        add r6, 1
        mov r2, r6
        and r2, 1
        xor r2, 1
        ldw r3, [r7+8]
        jeq r3, r6, +7
        ldw r3, [r7+12]
        jeq r3, r6, +5
        jgt r8, 4060, +4
        mov r3, r7
        add r3, r8
        ldw r2, [r3+32]
        add r8, r9
        mov r1, r6
        call sway
        add r6, 1
        exit
