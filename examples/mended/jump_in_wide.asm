; r0 0: a name takes into account that `lddw` has two units.
        mov r0, 0
        ja out
        lddw r0, 1
out:    exit
