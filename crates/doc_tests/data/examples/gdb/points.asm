; Steps for breakpoints and watchpoints: see points.gdb.
start:  nop
        nop
        mov dword [count], 7
        mov dword [count], 8
        hlt

section .data
count:  dd 0
