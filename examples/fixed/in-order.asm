; The right form of examples/faulty/crosswise.asm: both cores take `left` first, so whoever has it can have `right`, too.
;
;   ./elide outcomes examples/fixed/in-order.asm --cores 2 --entry first,second --show count --stuck

first:  mov eax, 1
        xchg eax, [left]
        test eax, eax
        jnz first
.right: mov eax, 1
        xchg eax, [right]
        test eax, eax
        jnz .right
        inc dword [count]
        mov dword [right], 0
        mov dword [left], 0
        hlt

second: mov eax, 1
        xchg eax, [left]
        test eax, eax
        jnz second
.right: mov eax, 1
        xchg eax, [right]
        test eax, eax
        jnz .right
        inc dword [count]
        mov dword [right], 0
        mov dword [left], 0
        hlt

section .data
left:   dd 0
        align 64
right:  dd 0
        align 64
count:  dd 0

; elide: outcomes --cores 2 --entry first,second --show count --stuck
; expect: exactly 2
