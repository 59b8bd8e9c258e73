        mov ecx, -1
        mov ebx, 3
        jmp .next
.sub:   ret
.next:  mov al, [0x1000]
        add al, cl
        mov [0x1004], al
        movzx esi, al
        setc [0x1008]
        imul esi, ecx
        mov eax, esi
        mul ebx
        div ebx
        xchg [0x100c], eax
        lock xadd [0x1010], esi
        call .sub
        dec ecx
        jnz .next
