        mov ecx, -1
.next:  inc dword [0x1000]      ; two steps
        dec ecx
        jnz .next
