; WRONG: the fallback forgets to take the lock.
;
; Two cores whose transactions abort then load the same count, and one increment is lost. Each core adds 1 three times; the
; counter is 6 in the end on two cores, if none is lost. Its fixed form is examples/fixed/elision.asm.
;
;   ./elide hunt examples/faulty/no-lock.asm --cores 2 --check "count == 6"

start:  mov esi, 3
.next:  xbegin .fall
        cmp dword [mutex], 0
        jne .busy
        inc dword [count]
        xend
        jmp .done
.busy:  xabort 0xff
.fall:  mov ebx, [count]
        inc ebx
        mov [count], ebx
.done:  dec esi
        jnz .next
        hlt

section .data
mutex:  dd 0
        align 64
count:  dd 0

; elide: hunt --cores 2 --check "count == 6"
; expect: status 3
; expect: line run ... fails --check count == 6
