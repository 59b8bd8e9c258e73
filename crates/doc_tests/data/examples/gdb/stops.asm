; Each core stops in a way of its own: see stops.gdb.
start:  cmp eax, 1
        je trap
        cmp eax, 2
        je wrong
        cmp eax, 3
        je zero
        hlt
trap:   int3
wrong:  ud2
zero:   xor ecx, ecx
        div ecx
