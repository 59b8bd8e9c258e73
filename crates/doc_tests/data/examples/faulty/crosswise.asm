; WRONG: two locks are taken crosswise.
;
; Core 0 takes `left` and then `right`, core 1 the other way round. Where each has taken its first, each waits for the other for
; ever. Nothing that memory has in the end shows it, since no such run ends; its fixed form is examples/fixed/in-order.asm.
;
;   ./elide outcomes examples/faulty/crosswise.asm --cores 2 --entry first,second --show count --stuck

first:  mov eax, 1
        xchg eax, [left]
        test eax, eax
        jnz first
.right: mov eax, 1
        xchg eax, [right]
        test eax, eax
        jnz .right
        inc dword [count]
        mov dword [right], 0
        mov dword [left], 0
        hlt

second: mov eax, 1
        xchg eax, [right]
        test eax, eax
        jnz second
.left:  mov eax, 1
        xchg eax, [left]
        test eax, eax
        jnz .left
        inc dword [count]
        mov dword [left], 0
        mov dword [right], 0
        hlt

section .data
left:   dd 0
        align 64
right:  dd 0
        align 64
count:  dd 0

; elide: outcomes --cores 2 --entry first,second --show count --stuck
; expect: status 3
; expect: line 00000002 ...
; expect: line stuck  4  0 1 0 0 0 0 1 1 1 1
; expect: line 1 outcomes in 35 states, 4 of them without a way to an end
