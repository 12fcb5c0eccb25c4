; r0 0: as a rule it loses majorities. Of up to three orders, one to attack is enough.
        ldw r0, [r1+32]
        ldw r2, [r1+36]
        or r0, r2
        ldw r2, [r1+40]
        or r0, r2
        exit
