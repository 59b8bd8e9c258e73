        mov ecx, -1
.next:  xbegin .next
        mov eax, [0x1000]
        add eax, ecx
        mov [0x1004], eax
        push eax
        pop edx
        lea ebx, [eax+ecx*4+8]
        cmp ebx, edx
        jb .on
.on:    shl edx, 3
        xor edx, ebx
        xend
        dec ecx
        jnz .next
