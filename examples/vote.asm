; r0 0: as a rule it keeps majorities. It counts the orders to attack, which are 1, and doubles their number.
        ldw r2, [r1+20]
        ldw r3, [r1+32]
        ldw r4, [r1+36]
        add r3, r4
        ldw r4, [r1+40]
        add r3, r4
        ldw r4, [r1+44]
        add r3, r4
        ldw r4, [r1+48]
        add r3, r4
        ldw r4, [r1+52]
        add r3, r4
        ldw r4, [r1+56]
        add r3, r4
        ldw r4, [r1+60]
        add r3, r4
        ldw r4, [r1+64]
        add r3, r4
        ldw r4, [r1+68]
        add r3, r4
        ldw r4, [r1+72]
        add r3, r4
        ldw r4, [r1+76]
        add r3, r4
        lsh r3, 1
        mov r0, 0
        jle r3, r2, out
        mov r0, 1
out:    exit
