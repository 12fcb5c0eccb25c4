; Keeps the signed order from the upper half of the lieutenants.
; As commander he signs attack for the lower half only. As a lieutenant he passes the first chain that he holds to the lower
; half only. He does so in every round, but later chains of a commander do not count.
; Beyond the bound he breaks IC1, if the bound is 0. With a greater bound the loyal lieutenants pass on what they hold.
; With oral messages he sends nothing.
        ldw r8, [r1+0]          ; how many generals there are
        sub r8, 1               ; how many lieutenants
        rsh r8, 1               ; half of them, rounded down
        ldw r2, [r1+12]         ; the commander
        jge r2, r8, +1
        add r8, 1               ; he is among the first, and is no lieutenant
        mov r6, 1
        lsh r6, r8
        sub r6, 1
        and r6, 8191            ; one bit for each general of the lower half
        mov r1, 1               ; attack
        mov r2, r6
        call sign_order         ; as commander
        mov r1, 0               ; the first chain that he holds
        mov r2, r6
        call pass_on            ; as lieutenant
        exit
