; Sends each general a random order, a new one in each round.
; Word 0 of the board is the seed. Each time that a program of this kind runs, it adds a constant to the word and computes 64
; random bits of it. Each receiver's bit is what he gets about every label.
; Beyond the bound he breaks IC1 and IC2, with some seeds.
; With signed messages he sends nothing.
        lddw r6, 0x9e3779b97f4a7c15; SplitMix64 (Steele, Lea and Flood, 2014)
        mov r1, 0               ; word 0 of the board
        mov r2, r6
        call board_add
        add r0, r6              ; the word after the addition
        mov r7, r0
        rsh r7, 30
        xor r0, r7
        lddw r7, 0xbf58476d1ce4e5b9
        mul r0, r7
        mov r7, r0
        rsh r7, 27
        xor r0, r7
        lddw r7, 0x94d049bb133111eb
        mul r0, r7
        mov r7, r0
        rsh r7, 31
        xor r7, r0              ; 64 random bits
        mov r6, 0               ; the receiver, counted up below
        mov r1, r6              ; once for each receiver
        mov r2, r7
        and r2, 1               ; his bit is his order
        call sway               ; this order, in every label
        rsh r7, 1
        add r6, 1
; the same for the next receivers: whoever does not exist gets nothing
        mov r1, r6
        mov r2, r7
        and r2, 1
        call sway
        rsh r7, 1
        add r6, 1
        mov r1, r6
        mov r2, r7
        and r2, 1
        call sway
        rsh r7, 1
        add r6, 1
        mov r1, r6
        mov r2, r7
        and r2, 1
        call sway
        rsh r7, 1
        add r6, 1
        mov r1, r6
        mov r2, r7
        and r2, 1
        call sway
        rsh r7, 1
        add r6, 1
        mov r1, r6
        mov r2, r7
        and r2, 1
        call sway
        rsh r7, 1
        add r6, 1
        mov r1, r6
        mov r2, r7
        and r2, 1
        call sway
        rsh r7, 1
        add r6, 1
        mov r1, r6
        mov r2, r7
        and r2, 1
        call sway
        rsh r7, 1
        add r6, 1
        mov r1, r6
        mov r2, r7
        and r2, 1
        call sway
        rsh r7, 1
        add r6, 1
        mov r1, r6
        mov r2, r7
        and r2, 1
        call sway
        rsh r7, 1
        add r6, 1
        mov r1, r6
        mov r2, r7
        and r2, 1
        call sway
        rsh r7, 1
        add r6, 1
        mov r1, r6
        mov r2, r7
        and r2, 1
        call sway
        rsh r7, 1
        add r6, 1
        mov r1, r6
        mov r2, r7
        and r2, 1
        call sway
        rsh r7, 1
        add r6, 1
        exit
