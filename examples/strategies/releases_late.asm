; Keeps a signed order among the traitors, and releases it to one general in the last round.
; As commander he signs attack for the last general only. In each later round this one passes it on to the general before
; him, and so on. In the last round, the bound plus 1, whoever holds it sends it to the first lieutenant.
; Beyond the bound he breaks IC1: with bound M it takes the commander and the last M generals. The first lieutenant accepts
; an order with M + 1 signatures, and can pass it on to nobody. If one of these generals is loyal, he has passed it on.
; With oral messages he sends nothing.
        ldw r6, [r1+12]         ; the commander
        ldw r7, [r1+16]         ; the round
        ldw r8, [r1+4]          ; the bound: the last round is one more
        mov r9, 0               ; in the last round for the first lieutenant
        jne r6, r9, +1
        add r9, 1
        jgt r7, r8, send
        ldw r9, [r1+8]          ; before that for the accomplice, the general before him
        jne r9, r6, +1
        ldw r9, [r1+0]          ; the commander's accomplice is the last general
        sub r9, 1
        jne r9, r6, +1
        sub r9, 1               ; the commander is passed over
send:   mov r6, 1
        lsh r6, r9
        and r6, 8191            ; the receiver's bit
        mov r1, 1               ; attack
        mov r2, r6
        call sign_order         ; as commander
        mov r1, 0               ; the first chain that he holds
        mov r2, r6
        call pass_on            ; as lieutenant
        exit
