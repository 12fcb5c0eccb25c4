;; answer.asm
; r0 42: a program that returns a number.
mov r0, 42
exit
;; board_add.asm
; r0 1: a counter in word 0 of the board. Each call returns the old word, so the second one returns 1.
        mov r1, 0
        mov r2, 1
        call board_add
        mov r1, 0
        mov r2, 1
        call board_add
        exit
;; board_cas.asm
; r0 9: word 0 becomes 5. Then it becomes 9, because it is 5.
        mov r1, 0
        mov r2, 5
        call board_swap
        mov r1, 0
        mov r2, 5
        mov r3, 9
        call board_cas
        mov r1, 0
        call board_get
        exit
;; board_copy.asm
; r0 0: the last four words of the board are copied to the 32 cells from -32 on.
        mov r1, 60
        mov r2, r10
        add r2, -32
        mov r3, 4
        call board_copy
        ldd r0, [r10-32]
        exit
;; board_mask.asm
; r0 0: a word of the board chooses one of the eight cells below r10. The mask leaves 0 to 7 of it.
        mov r1, 0
        call board_get
        mov r2, r0
        and r2, 7
        mov r3, r10
        add r3, -8
        add r3, r2
        stb [r3+0], 1
        mov r0, 0
        exit
;; board_slot.asm
; r0 0: a number of the context chooses a word of the board, if it is at most 63.
        ldd r2, [r1+32]
        mov r0, 0
        jgt r2, 63, out
        mov r1, r2
        call board_get
out:    exit
;; campaign_collusion.asm
        mov r1, 0       ; slot 0 of the board
        mov r2, 1
        call board_add  ; adds 1; r0 is the old word
        mov r6, r0
        and r6, 1       ; even: retreat, odd: attack
        mov r1, 1
        mov r2, r6
        call sway
        mov r1, 2
        mov r2, r6
        call sway
        mov r1, 3
        mov r2, r6
        call sway
        exit
;; campaign_cut_off.asm
        mov r1, 1
        mov r2, 0
        call sway       ; the third step, which still counts
        mov r1, 2
        mov r2, 0
        call sway
        exit
;; campaign_median.asm
        mov r1, 1
        mov r2, 1
        call sway
        mov r1, 2
        mov r2, 2
        call sway
        mov r1, 3
        mov r2, 3
        call sway
        exit
;; campaign_signed_collusion_first.asm
        ldw r6, [r1+16] ; the round, which calls leave in r6
        mov r1, 1       ; attack
        mov r2, 30      ; bits 1 to 4: for all
        call sign_order
        mov r1, 0       ; retreat
        mov r2, 16      ; bit 4: for general 4
        call sign_order
        mov r1, 0       ; slot 0 of the board
        mov r2, r6
        sub r2, 1       ; how many rounds are over
        call board_swap
        exit
;; campaign_signed_collusion_second.asm
        mov r1, 0       ; slot 0 of the board
        call board_get
        mov r1, r0
        and r1, 1       ; the place of a chain that he holds: the first or the second
        mov r2, 2       ; bit 1: for general 1
        call pass_on
        exit
;; campaign_signed_late_first.asm
        mov r1, 1       ; attack
        mov r2, 6       ; bits 1 and 2: for generals 1 and 2
        call sign_order
        mov r1, 0       ; retreat
        mov r2, 8       ; bit 3: for general 3
        call sign_order
        exit
;; campaign_signed_late_second.asm
        ldw r2, [r1+16] ; the round
        ldw r3, [r1+4]  ; the bound: the last round is one more
        mov r0, 1
        jle r2, r3, out ; not yet
        mov r1, 0       ; the first chain that he holds: the commander's "retreat"
        mov r2, 2       ; bit 1: for general 1
        call pass_on
out:    exit
;; campaign_signed_silent.asm
        mov r0, 0
        exit
;; campaign_signed_three_generals.asm
        mov r1, 0       ; retreat
        mov r2, 2       ; bit 1: for general 1
        call sign_order ; r0 is 1, and nothing is entered: he does not command
        mov r1, 0       ; the first chain that he holds: none yet in round 1
        mov r2, 2
        call pass_on
        exit
;; campaign_signed_two_orders.asm
        mov r1, 1       ; attack
        mov r2, 2       ; bit 1: for general 1
        call sign_order
        mov r1, 0       ; retreat
        mov r2, 4       ; bit 2: for general 2
        call sign_order
        exit            ; in round 2 he signs both again, too late: a chain with one signature counts only in round 1
;; campaign_silent_commander.asm
        mov r1, 1
        mov r2, 1
        call sway
        mov r1, 2
        mov r2, 0
        call sway
        exit
;; campaign_three_generals.asm
        mov r1, 1
        mov r2, 0
        call sway
        exit
;; campaign_too_many_traitors_first.asm
        mov r1, 1
        mov r2, 1
        call sway
        mov r1, 2
        mov r2, 1
        call sway
        mov r1, 3
        mov r2, 0
        call sway
        exit
;; campaign_too_many_traitors_second.asm
        mov r1, 1
        mov r2, 1
        call sway
        mov r1, 2
        mov r2, 0
        call sway
        mov r1, 3
        mov r2, 0
        call sway
        exit
;; campaign_traitor_commander.asm
        mov r1, 1
        mov r2, 1
        call sway
        mov r1, 2
        mov r2, 0
        call sway
        mov r1, 3
        mov r2, 1
        call sway
        exit
;; campaign_traitor_lieutenant.asm
        mov r1, 1       ; to general 1
        mov r2, 0       ; retreat
        call sway       ; in each label that he relays
        mov r1, 2       ; and to general 2
        mov r2, 0
        call sway
        exit
;; campaign_two_faced.asm
        mov r6, r1          ; keeps the context's address, since a call loses r1
        mov r1, 1
        call honest         ; sends general 1 the order that general 2 took
        ldw r2, [r6+32]     ; reads this order (in round 1 he has none, and sway sends nothing)
        xor r2, 1           ; 1 becomes 0, and 0 becomes 1
        mov r1, 3
        call sway           ; sends general 3 the opposite
        exit
;; division.asm
; r0 15: division by 0 gives 0, and its remainder is the number. The least number by -1 is itself, with remainder 0.
        mov r1, 0
        mov r0, 7
        div r0, r1
        mov r2, 7
        mod r2, r1
        add r0, r2
        lddw r3, 0x8000000000000000
        mov r4, r3
        sdiv r3, -1
        smod r4, -1
        sub r3, r4
        rsh r3, 60
        add r0, r3
        exit
;; honest.asm
; r0 0: general 1 gets what was taken for each label, and general 2 gets 0. In `check` there are no labels.
        mov r1, 1
        call honest
        mov r6, r0              ; a call leaves r6 to r9 as they are
        mov r1, 2
        mov r2, 0
        call sway
        add r0, r6
        exit
;; joined.asm
; r0 4: r2 points into the stack on both paths, to -16 or to -8, and both places hold bytes.
        std [r10-16], 3
        std [r10-8], 4
        mov r2, r10
        ldw r3, [r1+16]
        jeq r3, 0, first
        add r2, -8
        ja read
first:  add r2, -16
read:   ldd r0, [r2+0]
        exit
;; larger.asm
; r0 3: the larger of r6 and r7, compared as signed numbers.
        mov r6, -5
        mov r7, 3
        mov r0, r6
        jsgt r6, r7, done
        mov r0, r7
done:   exit
;; masked.asm
; r0 0: the mask leaves 0 to 7 of any number, so it can choose one of the eight cells below r10.
        ldd r2, [r1+32]
        and r2, 7
        mov r3, r10
        add r3, -8
        add r3, r2
        stb [r3+0], 1
        mov r0, 0
        exit
;; mended_above_stack.asm
; r0 6: eight bytes from -8 on end at 0.
        std [r10-8], 6
        ldd r0, [r10-8]
        exit
;; mended_argument_gone.asm
; r0 5: a call leaves r6 to r9 as they are.
        mov r6, 5
        mov r1, r6
        call board_get
        mov r0, r6
        exit
;; mended_back_jump.asm
; r0 6: there are no loops, so what is done three times is written three times.
        mov r0, 0
        add r0, 2
        add r0, 2
        add r0, 2
        exit
;; mended_board_wide_mask.asm
; r0 0: the mask leaves 0 to 15, and there are sixteen cells.
        mov r1, 0
        call board_get
        mov r2, r0
        and r2, 15
        mov r3, r10
        add r3, -16
        add r3, r2
        stb [r3+0], 1
        mov r0, 0
        exit
;; mended_constant_data.asm
; r0 7: the array is written to the stack, where the program finds it.
        stw [r10-8], 5
        stw [r10-4], 7
        ldw r0, [r10-4]
        exit
;; mended_context_write.asm
; r0 5: the number to be changed is copied to the stack.
        ldw r2, [r1+0]
        add r2, 1
        stxw [r10-4], r2
        ldw r0, [r10-4]
        exit
;; mended_copy_past_board.asm
; r0 0: five words from 59 on end with word 63.
        mov r1, 59
        mov r2, r10
        add r2, -40
        mov r3, 5
        call board_copy
        ldd r0, [r10-40]
        exit
;; mended_copy_past_stack.asm
; r0 0: four words are copied to 32 cells.
        mov r1, 60
        mov r2, r10
        add r2, -32
        mov r3, 4
        call board_copy
        ldd r0, [r10-32]
        exit
;; mended_copy_tested.asm
; r0 0: the copy that was tested is used.
        ldd r2, [r1+32]
        mov r0, 0
        mov r4, r2
        jgt r4, 7, out
        mov r3, r10
        add r3, -8
        add r3, r4
        stb [r3+0], 1
out:    exit
;; mended_copy_to_context.asm
; r0 1: the words are written to the stack.
        mov r1, 0
        mov r2, r10
        add r2, -8
        mov r3, 1
        call board_copy
        exit
;; mended_empty_cells.asm
; r0 1: eight bytes are stored, and eight are read.
        std [r10-8], 1
        ldd r0, [r10-8]
        exit
;; mended_equal_bits.asm
; r0 0: the cells that one path reads are written first.
        std [r10-8], 0
        ldd r2, [r1+32]
        or r2, 1
        ldd r3, [r1+40]
        and r3, 2
        mov r0, 0
        jeq r2, r3, equal
        exit
equal:  ldd r0, [r10-8]
        exit
;; mended_far_pointer.asm
; r0 1: the pointer stays in the context, where the bound is at 4.
        add r1, 4
        ldw r0, [r1+0]
        exit
;; mended_far_slot.asm
; r0 0: 63 is the last word of the board.
        mov r1, 63
        call board_get
        exit
;; mended_frame_write.asm
; r0 3: a copy of r10 may be moved.
        mov r2, r10
        sub r2, 16
        std [r2+0], 3
        ldd r0, [r10-16]
        exit
;; mended_index_spilled.asm
; r0 0: the number is masked again after it is loaded.
        ldd r2, [r1+32]
        mov r0, 0
        jgt r2, 7, out
        stxd [r10-16], r2
        ldd r2, [r10-16]
        and r2, 7
        mov r3, r10
        add r3, -8
        add r3, r2
        stb [r3+0], 1
out:    exit
;; mended_jump_in_wide.asm
; r0 0: a name takes into account that `lddw` has two units.
        mov r0, 0
        ja out
        lddw r0, 1
out:    exit
;; mended_jump_out.asm
; r0 0: the jump leads to the exit by its name.
        mov r0, 0
        jeq r0, 0, out
out:    exit
;; mended_low_half_slot.asm
; r0 0: the test uses all 64 bits.
        ldd r2, [r1+32]
        mov r0, 0
        jgt r2, 63, out
        mov r1, r2
        call board_get
out:    exit
;; mended_low_half_tested.asm
; r0 0: the test uses all 64 bits.
        ldd r2, [r1+32]
        mov r0, 0
        jgt r2, 7, out
        mov r3, r10
        add r3, -8
        add r3, r2
        stb [r3+0], 1
out:    exit
;; mended_no_exit.asm
; r0 0: the last instruction is `exit`.
        mov r0, 0
        exit
;; mended_no_helper.asm
; r0 0: the call names a helper that exists.
        mov r1, 0
        call board_get
        exit
;; mended_number_as_pointer.asm
; r0 4: r1, r10, their copies and the sums of these with numbers are pointers.
        mov r2, r1
        ldb r0, [r2+0]
        exit
;; mended_part_of_pointer.asm
; r0 4: the stored pointer is loaded whole, and then followed.
        stxd [r10-8], r1
        ldd r2, [r10-8]
        ldw r0, [r2+0]
        exit
;; mended_pointer_added.asm
; r0 1: the number is added to a copy of the pointer.
        mov r2, 16
        mov r3, r1
        add r3, r2
        ldw r0, [r3+0]
        exit
;; mended_pointer_compared.asm
; r0 1: a pointer is never 0, so no comparison is needed.
        mov r0, 1
        exit
;; mended_pointer_out.asm
; r0 4: the result is the number to which the pointer leads.
        ldw r0, [r1+0]
        exit
;; mended_row_past_cells.asm
; r0 0: the mask leaves 0 or 1, and two orders are stored.
        stw [r10-12], 1
        stw [r10-8], 0
        ldd r3, [r1+32]
        and r3, 1
        mov r1, 0
        mov r2, r10
        add r2, -12
        call send_row
        exit
;; mended_signed_half_tested.asm
; r0 0: the test reads the number as unsigned.
        ldw r2, [r1+32]
        mov r0, 0
        jgt.w r2, 7, out
        mov r3, r10
        add r3, -8
        add r3, r2
        stb [r3+0], 1
out:    exit
;; mended_signed_tested.asm
; r0 0: an index is unsigned, and so is its test.
        ldd r2, [r1+32]
        mov r0, 0
        jgt r2, 7, out
        mov r3, r10
        add r3, -8
        add r3, r2
        stb [r3+0], 1
out:    exit
;; mended_unset.asm
; r0 0: r0 is set before the paths part.
        mov r0, 0
        ldw r2, [r1+16]
        jeq r2, 1, out
        mov r0, 7
out:    exit
;; mended_wide_mask.asm
; r0 0: the mask leaves 0 to 7.
        ldd r2, [r1+32]
        and r2, 7
        mov r3, r10
        add r3, -8
        add r3, r2
        stb [r3+0], 1
        mov r0, 0
        exit
;; names.asm
; r0 16: a name means the unit of the instruction that follows. This jump is not taken, since r0 is not 0.
        mov r0, 1
again:  jeq r0, 0, done
        lsh r0, 4
done:   exit
;; one_bit.asm
; r0 0: bit 3 of a number chooses one of two cells. All its other bits are known to be 0.
        ldd r2, [r1+32]
        and r2, 8
        xor r2, 8
        mov r3, r10
        add r3, -9
        add r3, r2
        stb [r3+0], 1
        mov r0, 0
        exit
;; one_bit_tested.asm
; r0 0: this test never holds, since r2 is 0 or 8. So the empty cell is never read.
        ldd r2, [r1+32]
        and r2, 8
        xor r2, 8
        mov r0, 0
        jgt r2, 8, never
        exit
never:  ldd r0, [r10-8]
        exit
;; rash.asm
; r0 0: as a rule it loses majorities. Of up to three orders, one to attack is enough.
        ldw r0, [r1+32]
        ldw r2, [r1+36]
        or r0, r2
        ldw r2, [r1+40]
        or r0, r2
        exit
;; refused_above_stack.asm
; V8 unit 0: eight bytes from -4 on end at 4, but the stack ends at 0.
        ldd r0, [r10-4]
        exit
;; refused_argument_gone.asm
; V5 unit 2: a call leaves r1 to r5 unset.
        mov r1, 0
        call board_get
        mov r0, r1
        exit
;; refused_back_jump.asm
; V1 unit 1: a jump to its own unit.
        mov r0, 0
again:  ja again
        exit
;; refused_board_wide_mask.asm
; V8 unit 7: the mask leaves 0 to 15, but from -8 on there are only eight cells.
        mov r1, 0
        call board_get
        mov r2, r0
        and r2, 15
        mov r3, r10
        add r3, -8
        add r3, r2
        stb [r3+0], 1
        mov r0, 0
        exit
;; refused_constant_data.asm
; V7 unit 2: clang puts a constant array into .rodata. Until its address is filled in, there is a 0 here.
        lddw r2, 0
        ldw r0, [r2+4]
        exit
;; refused_context_write.asm
; V10 unit 0: the context can only be read.
        stb [r1+0], 1
        mov r0, 0
        exit
;; refused_copy_past_board.asm
; V12 unit 4: five words from 60 on would end after word 63, the last.
        mov r1, 60
        mov r2, r10
        add r2, -32
        mov r3, 5
        call board_copy
        ldd r0, [r10-32]
        exit
;; refused_copy_past_stack.asm
; V8 unit 4: four words need 32 cells, but from -24 on there are only 24.
        mov r1, 60
        mov r2, r10
        add r2, -24
        mov r3, 4
        call board_copy
        ldd r0, [r10-32]
        exit
;; refused_copy_tested.asm
; V7 unit 6: the test bounds only the copy in r4, and r2 may still be any number.
        ldd r2, [r1+32]
        mov r0, 0
        mov r4, r2
        jgt r4, 7, out
        mov r3, r10
        add r3, -8
        add r3, r2
        stb [r3+0], 1
out:    exit
;; refused_copy_to_context.asm
; V10 unit 3: the words would be written to the context.
        mov r2, r1
        mov r1, 0
        mov r3, 1
        call board_copy
        exit
;; refused_empty_cells.asm
; V9 unit 1: one byte is stored, but eight are read.
        stb [r10-8], 1
        ldd r0, [r10-8]
        exit
;; refused_equal_bits.asm
; V9 unit 7: r2 is odd and r3 is even, but a test of equality uses only their bounds.
        ldd r2, [r1+32]
        or r2, 1
        ldd r3, [r1+40]
        and r3, 2
        mov r0, 0
        jeq r2, r3, equal
        exit
equal:  ldd r0, [r10-8]
        exit
;; refused_far_pointer.asm
; V7 unit 0: the pointer would be more than 65,536 from the start of its region.
        add r1, 287454020
        mov r0, 0
        exit
;; refused_far_slot.asm
; V12 unit 1: the board has the words 0 to 63.
        mov r1, 64
        call board_get
        exit
;; refused_frame_write.asm
; V6 unit 0: a program must not change r10.
        sub r10, 16
        mov r0, 0
        exit
;; refused_index_spilled.asm
; V7 unit 7: a number that is loaded from the stack may be any number.
        ldd r2, [r1+32]
        mov r0, 0
        jgt r2, 7, out
        stxd [r10-16], r2
        ldd r2, [r10-16]
        mov r3, r10
        add r3, -8
        add r3, r2
        stb [r3+0], 1
out:    exit
;; refused_jump_in_wide.asm
; V3 unit 0: a jump into the second half of an instruction of two units.
        ja +1
        lddw r0, 1
        exit
;; refused_jump_out.asm
; V2 unit 1: a jump past the end.
        mov r0, 0
        jeq r0, 0, +1
        exit
;; refused_low_half_slot.asm
; V12 unit 4: the test uses only the low 32 bits, so the upper half may be anything.
        ldd r2, [r1+32]
        mov r0, 0
        jgt.w r2, 63, out
        mov r1, r2
        call board_get
out:    exit
;; refused_low_half_tested.asm
; V7 unit 5: the test uses only the low 32 bits, so the upper half may be anything.
        ldd r2, [r1+32]
        mov r0, 0
        jgt.w r2, 7, out
        mov r3, r10
        add r3, -8
        add r3, r2
        stb [r3+0], 1
out:    exit
;; refused_no_exit.asm
; V4 unit 0: the last instruction is not `exit`.
        mov r0, 0
;; refused_no_helper.asm
; V11 unit 1: there is no helper 1000.
        mov r1, 0
        call 1000
        exit
;; refused_number_as_pointer.asm
; V7 unit 1: a number is not an address.
        mov r2, 0
        ldb r0, [r2+0]
        exit
;; refused_part_of_pointer.asm
; V9 unit 1: a part of a stored pointer is not a number.
        stxd [r10-8], r1
        ldw r0, [r10-8]
        exit
;; refused_pointer_added.asm
; V7 unit 1: the sum of a number and a pointer would be in the number's register.
        mov r2, 16
        add r2, r1
        ldw r0, [r2+0]
        exit
;; refused_pointer_compared.asm
; V7 unit 1: pointers cannot be compared.
        mov r0, 0
        jeq r1, 0, out
        mov r0, 1
out:    exit
;; refused_pointer_out.asm
; V13 unit 1: the program ends with a pointer in r0.
        mov r0, r1
        exit
;; refused_row_past_cells.asm
; V9 unit 7: the mask leaves 0 to 3 orders, but only two are stored.
        stw [r10-12], 1
        stw [r10-8], 0
        ldd r3, [r1+32]
        and r3, 3
        mov r1, 0
        mov r2, r10
        add r2, -12
        call send_row
        exit
;; refused_signed_half_tested.asm
; V7 unit 5: the test reads 32 bits as a signed number, but r2 is only known to be below 2^32.
        ldw r2, [r1+32]
        mov r0, 0
        jsgt.w r2, 7, out
        mov r3, r10
        add r3, -8
        add r3, r2
        stb [r3+0], 1
out:    exit
;; refused_signed_tested.asm
; V7 unit 5: each number from 2^63 on passes a signed test, since it is negative.
        ldd r2, [r1+32]
        mov r0, 0
        jsgt r2, 7, out
        mov r3, r10
        add r3, -8
        add r3, r2
        stb [r3+0], 1
out:    exit
;; refused_unset.asm
; V5 unit 3: on one of the two paths to the exit r0 is not set.
        ldw r2, [r1+16]
        jeq r2, 1, out
        mov r0, 0
out:    exit
;; refused_wide_mask.asm
; V8 unit 5: the mask leaves 0 to 15, but from -8 on there are only eight cells.
        ldd r2, [r1+32]
        and r2, 15
        mov r3, r10
        add r3, -8
        add r3, r2
        stb [r3+0], 1
        mov r0, 0
        exit
;; remainder.asm
; r0 5: the 32-bit remainder of a 64-bit number by 0 is its low half.
lddw r0, 0x100000005
mod.w r0, 0
exit
;; send.asm
; r0 1: general 1 gets the order 1 for the label of rank 0. In `check` there is none, so r0 is 1.
        mov r1, 0
        mov r2, 1
        mov r3, 1
        call send
        exit
;; send_row.asm
; r0 0: the receivers of the label of rank 0 get 1, 0 and 1, and r0 is their number. In `check` there are none.
        stw [r10-12], 1
        stw [r10-8], 0
        stw [r10-4], 1
        mov r1, 0
        mov r2, r10
        add r2, -12
        mov r3, 3
        call send_row
        exit
;; shifts.asm
; r0 4: a 64-bit shift uses the low 6 bits of its count, and a 32-bit shift uses the low 5.
        mov r0, 1
        lsh r0, 65
        lsh.w r0, 33
        exit
;; skipped.asm
; r0 0: r2 is 5, so no value takes the path to the load, and the verifier does not look at it.
        mov r0, 0
        mov r2, 5
        jlt r2, 10, out
        ldd r0, [r10-8]
out:    exit
;; spill.asm
; r0 4: a pointer is kept on the stack. Then the program reads through it: at 0 is the number of generals.
stxd [r10-8], r1
ldd r2, [r10-8]
ldw r0, [r2+0]
exit
;; sway.asm
; r0 0: general 2 gets the order 1 for each label, and r0 is their number. In `check` there are none.
        mov r1, 2
        mov r2, 1
        call sway
        exit
;; tested.asm
; r0 0: a number of the context chooses one of the eight cells below r10, if it is at most 7.
        ldd r2, [r1+32]
        mov r0, 0
        jgt r2, 7, out
        mov r3, r10
        add r3, -8
        add r3, r2
        stb [r3+0], 1
out:    exit
;; tried.asm
; r0 0: general 3 gets what was taken, and general 1 gets 7 for the label of rank 1. Word 5 of the board grows by 1.
        mov r1, 3
        call honest
        mov r1, 1
        mov r2, 1
        mov r3, 7
        call send
        mov r1, 5
        mov r2, 1
        call board_add
        exit
;; vote.asm
; r0 0: as a rule it keeps majorities. It counts the orders to attack, which are 1, and doubles their number.
        ldw r2, [r1+20]
        ldw r3, [r1+32]
        ldw r4, [r1+36]
        add r3, r4
        ldw r4, [r1+40]
        add r3, r4
        ldw r4, [r1+44]
        add r3, r4
        ldw r4, [r1+48]
        add r3, r4
        ldw r4, [r1+52]
        add r3, r4
        ldw r4, [r1+56]
        add r3, r4
        ldw r4, [r1+60]
        add r3, r4
        ldw r4, [r1+64]
        add r3, r4
        ldw r4, [r1+68]
        add r3, r4
        ldw r4, [r1+72]
        add r3, r4
        ldw r4, [r1+76]
        add r3, r4
        lsh r3, 1
        mov r0, 0
        jle r3, r2, out
        mov r0, 1
out:    exit
