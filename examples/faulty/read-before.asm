; WRONG: the lock is read before the transaction begins.
;
; So it is not in the read set, and whoever takes the lock after that does not abort the transaction. Each core adds 1 three
; times; the counter is 6 in the end on two cores, if no increment is lost. Its fixed form is examples/fixed/elision.asm.
;
;   ./elide hunt examples/faulty/read-before.asm --cores 2 --check "count == 6"

start:  mov esi, 3
.next:  cmp dword [mutex], 0
        jne .wait
        xbegin .fall
        inc dword [count]
        xend
        jmp .done
.wait:  pause
        jmp .next
.fall:  mov eax, 1
        xchg eax, [mutex]
        test eax, eax
        jz .own
        pause
        jmp .fall
.own:   mov ebx, [count]
        inc ebx
        mov [count], ebx
        mov dword [mutex], 0
.done:  dec esi
        jnz .next
        hlt

section .data
mutex:  dd 0
        align 64
count:  dd 0

; elide: hunt --cores 2 --check "count == 6"
; expect: status 3
; expect: line run ... fails --check count == 6
