; Makes another general look like a liar.
; The victim is the first lieutenant other than himself. In rounds 1 and 2 everybody gets the truth, but the victim gets the
; opposite, so what the victim reports or decides contradicts all others. From round 3 on everybody gets the opposite of the
; victim's report, as if he had sent different orders to different generals, and the truth about the other labels.
; (In rounds 4 and 5 the lie is about the first of the labels that begin with the victim.)
; Beyond the bound he breaks IC2: the victim among three generals does not obey. A commander and a lieutenant who frame the
; same victim among four generals break IC1.
; With signed messages he sends nothing.
        ldw r7, [r1+32]         ; the order that he took for the first label
        xor r7, 1               ; its opposite
        ldw r9, [r1+16]         ; the round
        ldw r2, [r1+8]          ; the traitor himself
        ldw r3, [r1+12]         ; the commander
        mov r8, 0               ; the victim: the first general who is neither
        jeq r8, r2, +1
        jne r8, r3, +1
        add r8, 1
        jeq r8, r2, +1
        jne r8, r3, +1
        add r8, 1
        mov r6, 0               ; the receiver, counted up below
        mov r1, r6              ; once for each receiver
        call honest             ; the truth
        jgt r9, 2, +1           ; from round 3 on everybody gets a lie
        jne r6, r8, +4          ; before that only the victim
        mov r1, 0               ; the first label, in round 3 the victim's report
        mov r2, r6
        mov r3, r7
        call send
        add r6, 1
; the same for the next receivers: whoever does not exist gets nothing
        mov r1, r6
        call honest
        jgt r9, 2, +1
        jne r6, r8, +4
        mov r1, 0
        mov r2, r6
        mov r3, r7
        call send
        add r6, 1
        mov r1, r6
        call honest
        jgt r9, 2, +1
        jne r6, r8, +4
        mov r1, 0
        mov r2, r6
        mov r3, r7
        call send
        add r6, 1
        mov r1, r6
        call honest
        jgt r9, 2, +1
        jne r6, r8, +4
        mov r1, 0
        mov r2, r6
        mov r3, r7
        call send
        add r6, 1
        mov r1, r6
        call honest
        jgt r9, 2, +1
        jne r6, r8, +4
        mov r1, 0
        mov r2, r6
        mov r3, r7
        call send
        add r6, 1
        mov r1, r6
        call honest
        jgt r9, 2, +1
        jne r6, r8, +4
        mov r1, 0
        mov r2, r6
        mov r3, r7
        call send
        add r6, 1
        mov r1, r6
        call honest
        jgt r9, 2, +1
        jne r6, r8, +4
        mov r1, 0
        mov r2, r6
        mov r3, r7
        call send
        add r6, 1
        mov r1, r6
        call honest
        jgt r9, 2, +1
        jne r6, r8, +4
        mov r1, 0
        mov r2, r6
        mov r3, r7
        call send
        add r6, 1
        mov r1, r6
        call honest
        jgt r9, 2, +1
        jne r6, r8, +4
        mov r1, 0
        mov r2, r6
        mov r3, r7
        call send
        add r6, 1
        mov r1, r6
        call honest
        jgt r9, 2, +1
        jne r6, r8, +4
        mov r1, 0
        mov r2, r6
        mov r3, r7
        call send
        add r6, 1
        mov r1, r6
        call honest
        jgt r9, 2, +1
        jne r6, r8, +4
        mov r1, 0
        mov r2, r6
        mov r3, r7
        call send
        add r6, 1
        mov r1, r6
        call honest
        jgt r9, 2, +1
        jne r6, r8, +4
        mov r1, 0
        mov r2, r6
        mov r3, r7
        call send
        add r6, 1
        mov r1, r6
        call honest
        jgt r9, 2, +1
        jne r6, r8, +4
        mov r1, 0
        mov r2, r6
        mov r3, r7
        call send
        add r6, 1
        exit
