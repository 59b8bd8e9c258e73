; WRONG: the fallback gives the lock back before its last store.
;
; A transaction that begins in between finds the lock free, and its increment is lost under that store. Each core adds 1 three
; times; the counter is 6 in the end on two cores, if none is lost. Its fixed form is examples/fixed/elision.asm.
;
;   ./elide hunt examples/faulty/early-release.asm --cores 2 --check "count == 6"

start:  mov esi, 3
.next:  xbegin .fall
        cmp dword [mutex], 0
        jne .busy
        inc dword [count]
        xend
        jmp .done
.busy:  xabort 0xff
.fall:  mov eax, 1
        xchg eax, [mutex]
        test eax, eax
        jz .own
        pause
        jmp .fall
.own:   mov ebx, [count]
        inc ebx
        mov dword [mutex], 0
        mov [count], ebx
.done:  dec esi
        jnz .next
        hlt

section .data
mutex:  dd 0
        align 64
count:  dd 0

; elide: hunt --cores 2 --check "count == 6"
; expect: status 3
; expect: line run ... fails --check count == 6
