; Sends each general one consistent story, which the traitors agree on by the board.
; Word 1 of the board is their plan: bit G is the order that general G gets from every traitor, in every round and about
; every label. A traitor who commands writes the plan in round 1: the lower half of the lieutenants attack, the others
; retreat. If the commander is loyal, the first traitor who acts in round 2 writes it: all do the opposite of the order.
; A scenario may also contain a plan, with bit 13 set.
; Beyond the bound he breaks IC1 if he commands, as splits.asm does, and IC2 if he does not, as inverts.asm does.
; With signed messages he sends nothing.
        mov r0, 0
        ldw r2, [r1+20]         ; how many labels he relays
        jeq r2, 0, out          ; none: he has nothing to say
        ldw r8, [r1+0]          ; how many generals there are
        sub r8, 1               ; how many lieutenants
        rsh r8, 1               ; half of them, rounded down
        ldw r2, [r1+12]         ; the commander
        jge r2, r8, +1
        add r8, 1               ; he is among the first, and is no lieutenant
        mov r7, 1
        lsh r7, r8
        sub r7, 1               ; the commander's plan: the lower half attacks
        ldw r3, [r1+8]          ; the traitor himself
        jeq r3, r2, plan
        ldw r7, [r1+32]         ; a lieutenant's plan: all do the opposite
        and r7, 1               ; of the order that he took
        sub r7, 1               ; 1 gives no bits, 0 all
plan:   and r7, 8191            ; the bits of thirteen generals
        or r7, 8192             ; one more bit, so that no plan is 0
        mov r1, 1               ; word 1 of the board
        mov r2, 0
        mov r3, r7
        call board_cas          ; writes his plan if there is none yet
        jeq r0, 0, +1
        mov r7, r0              ; the plan that was there
        mov r6, 0               ; the receiver, counted up below
        mov r1, r6              ; once for each receiver
        mov r2, r7
        and r2, 1               ; his bit is his order
        call sway               ; this order, in every label
        rsh r7, 1
        add r6, 1
; the same for the next receivers: whoever does not exist gets nothing
        mov r1, r6
        mov r2, r7
        and r2, 1
        call sway
        rsh r7, 1
        add r6, 1
        mov r1, r6
        mov r2, r7
        and r2, 1
        call sway
        rsh r7, 1
        add r6, 1
        mov r1, r6
        mov r2, r7
        and r2, 1
        call sway
        rsh r7, 1
        add r6, 1
        mov r1, r6
        mov r2, r7
        and r2, 1
        call sway
        rsh r7, 1
        add r6, 1
        mov r1, r6
        mov r2, r7
        and r2, 1
        call sway
        rsh r7, 1
        add r6, 1
        mov r1, r6
        mov r2, r7
        and r2, 1
        call sway
        rsh r7, 1
        add r6, 1
        mov r1, r6
        mov r2, r7
        and r2, 1
        call sway
        rsh r7, 1
        add r6, 1
        mov r1, r6
        mov r2, r7
        and r2, 1
        call sway
        rsh r7, 1
        add r6, 1
        mov r1, r6
        mov r2, r7
        and r2, 1
        call sway
        rsh r7, 1
        add r6, 1
        mov r1, r6
        mov r2, r7
        and r2, 1
        call sway
        rsh r7, 1
        add r6, 1
        mov r1, r6
        mov r2, r7
        and r2, 1
        call sway
        rsh r7, 1
        add r6, 1
        mov r1, r6
        mov r2, r7
        and r2, 1
        call sway
        rsh r7, 1
        add r6, 1
out:    exit
