; r0 0: the last instruction is `exit`.
        mov r0, 0
        exit
