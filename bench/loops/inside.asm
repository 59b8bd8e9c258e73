        mov ecx, -1
.next:  xbegin .next
        inc dword [0x1000]
        xend
        dec ecx
        jnz .next
