; Core 0 stops at once, and core 1 counts: see schedule.gdb.
start:  test eax, eax
        jnz other
        hlt
other:  inc ebx
        inc ebx
        inc ebx
        inc ebx
        inc ebx
        hlt
