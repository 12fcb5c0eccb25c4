; r0 15: division by 0 gives 0, and its remainder is the number. The least number by -1 is itself, with remainder 0.
        mov r1, 0
        mov r0, 7
        div r0, r1
        mov r2, 7
        mod r2, r1
        add r0, r2
        lddw r3, 0x8000000000000000
        mov r4, r3
        sdiv r3, -1
        smod r4, -1
        sub r3, r4
        rsh r3, 60
        add r0, r3
        exit
