; The right form of examples/faulty/two-reads.asm: both words are read in one transaction.
;
;   ./elide hunt examples/fixed/one-read.asm --cores 2 --stop "#BP"

start:  test eax, eax
        jnz .read
        mov esi, 30
.turn:  dec esi
        jnz .turn
        xbegin .out
        inc dword [first]
        inc dword [second]
        xend
.out:   hlt
.read:  xbegin .out
        mov ebx, [first]
        mov edx, [second]
        xend
        cmp ebx, edx
        je .out
        int3

section .data
first:  dd 0
        align 64
second: dd 0

; elide: hunt --cores 2 --stop "#BP"
; expect: no failure
