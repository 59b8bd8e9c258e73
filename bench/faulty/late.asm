; WRONG: a counter is added to without a lock, behind walks that differ in length.
start:  mov esi, 100
        test eax, eax
        jz .walk
        mov esi, 300
.walk:  dec esi
        jnz .walk
        mov ebx, [count]
        inc ebx
        mov [count], ebx
        hlt
section .data
count:  dd 0
