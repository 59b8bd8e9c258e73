; WRONG: core 1 takes it that core 0 is ready once it has walked a longer way itself. It fails where core 1 goes first.
start:  test eax, eax
        jnz .late
        mov esi, 150
.walk:  dec esi
        jnz .walk
        mov dword [ready], 1
        hlt
.late:  mov esi, 400
.turn:  dec esi
        jnz .turn
        cmp dword [ready], 0
        je .wrong
        hlt
.wrong: int3
section .data
ready:  dd 0
