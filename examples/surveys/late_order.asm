; A program for each traitor of a signed campaign. The commander signs an order only for the last general. Each of them
; passes it on to the general before him, and in the last round to general 1, who cannot pass it on any more.
        ldw r6, [r1+8]      ; my number
        ldw r7, [r1+16]     ; the round
        ldw r8, [r1+4]      ; the bound
        ldw r9, [r1+0]      ; how many generals
        mov r2, 1
        jne r6, 0, other
        sub r9, 1
        lsh r2, r9          ; for the last general
        and r2, 8191        ; (so the verifier knows that it is at most 8,191)
        mov r1, 1           ; attack
        call sign_order
        exit
other:  sub r6, 1
        lsh r2, r6          ; for the general before me
        and r2, 8191
        jle r7, r8, pass
        mov r2, 2           ; in the last round for general 1
pass:   mov r1, 0           ; the first chain that I hold, if any
        call pass_on
        exit
