; V4 unit 0: the last instruction is not `exit`.
        mov r0, 0
