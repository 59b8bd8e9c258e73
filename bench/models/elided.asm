; Each core adds 1 under an elided lock, TURNS times.
start:  mov esi, TURNS
.next:  xbegin .fall
        cmp dword [mutex], 0
        jne .busy
        inc dword [count]
        xend
        jmp .done
.busy:  xabort 0xff
.fall:  cmp dword [mutex], 0
        je .take
        pause
        jmp .fall
.take:  mov eax, 1
        xchg eax, [mutex]
        test eax, eax
        jnz .fall
        inc dword [count]
        mov dword [mutex], 0
.done:  dec esi
        jnz .next
        hlt

section .data
mutex:  dd 0
        align 64
count:  dd 0
