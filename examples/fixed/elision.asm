; The right form of four of the locks in examples/faulty.
;
; The transaction reads the lock, so that whoever takes it aborts the transaction; the fallback takes the lock, and gives it
; back behind its last store. Each core adds 1 three times; the counter is 6 in the end on two cores.
;
;   ./elide hunt examples/fixed/elision.asm --cores 2 --check "count == 6" --expect-halt --limit 10000

start:  mov esi, 3
.next:  xbegin .fall
        cmp dword [mutex], 0
        jne .busy
        inc dword [count]
        xend
        jmp .done
.busy:  xabort 0xff
.fall:  mov eax, 1
        xchg eax, [mutex]
        test eax, eax
        jz .own
        pause
        jmp .fall
.own:   mov ebx, [count]
        inc ebx
        mov [count], ebx
        mov dword [mutex], 0
.done:  dec esi
        jnz .next
        hlt

section .data
mutex:  dd 0
        align 64
count:  dd 0

; elide: hunt --cores 2 --check "count == 6" --expect-halt --limit 10000
; expect: no failure
