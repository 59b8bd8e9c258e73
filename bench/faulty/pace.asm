; WRONG where two cores go on at one pace: each raises its flag and looks for the other's, five times.
start:  mov edi, eax
        shl edi, 6
        mov esi, 64
        sub esi, edi
        mov ecx, 1
.next:  mov [flag+edi], ecx
        cmp [flag+esi], ecx
        jne .out
        inc ecx
        cmp ecx, 6
        jne .next
        int3
.out:   hlt
section .data
        align 64
flag:   dd 0
        align 64
        dd 0
