; Two flags and a turn (Peterson, "Myths About the Mutual Exclusion Problem", 1981): the right form of flags.asm.
;
; A core raises its flag and gives the turn away; it waits while the other's flag is up and the turn is the other's. Who gave
; the turn away last waits, so that one of the two goes on. Each state has a way to an end.
;
;   ./elide outcomes examples/litmus/flags-turn.asm --cores 2 --entry first,second --show count --stuck

first:  mov eax, 1
        xchg eax, [left]
        mov eax, 1
        xchg eax, [turn]        ; the other's
.wait:  cmp dword [right], 0
        je .alone
        cmp dword [turn], 1
        je .wait
.alone: inc dword [count]
        mov dword [left], 0
        hlt

second: mov eax, 1
        xchg eax, [right]
        xor eax, eax
        xchg eax, [turn]
.wait:  cmp dword [left], 0
        je .alone
        cmp dword [turn], 0
        je .wait
.alone: inc dword [count]
        mov dword [right], 0
        hlt

section .data
left:   dd 0
        align 64
right:  dd 0
        align 64
turn:   dd 0
        align 64
count:  dd 0

; elide: outcomes --cores 2 --entry first,second --show count --stuck
; expect: exactly 2
; expect: line 1 outcomes in 86 states
