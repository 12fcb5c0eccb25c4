; Signs the order attack for the lower half of the lieutenants, and retreat for the upper half.
; He can do so only as commander, and only what he signs in round 1 counts. As a lieutenant he passes nothing on.
; Beyond the bound he breaks IC1, if the bound is 0. With a greater bound all loyal lieutenants see both, and retreat.
; With oral messages he sends nothing.
        ldw r8, [r1+0]          ; how many generals there are
        sub r8, 1               ; how many lieutenants
        rsh r8, 1               ; half of them, rounded down
        ldw r2, [r1+12]         ; the commander
        jge r2, r8, +1
        add r8, 1               ; he is among the first, and is no lieutenant
        mov r6, 1
        lsh r6, r8
        sub r6, 1
        and r6, 8191            ; one bit for each general of the lower half
        mov r1, 1               ; attack
        mov r2, r6              ; for the lower half
        call sign_order
        mov r1, 0               ; retreat
        mov r2, r6
        xor r2, 8191            ; for the others
        call sign_order
        exit
