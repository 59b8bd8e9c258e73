; WRONG: two words that must agree are read in two transactions.
;
; Core 0 adds 1 to both in one transaction, after a long walk; the other cores stop by int3 where they read different values,
; which takes a commit of core 0 between their two transactions. A check of memory cannot see it. The fixed form is
; examples/fixed/one-read.asm.
;
;   ./elide hunt examples/faulty/two-reads.asm --cores 2 --stop "#BP"

start:  test eax, eax
        jnz .read
        mov esi, 30
.turn:  dec esi
        jnz .turn
        xbegin .out
        inc dword [first]
        inc dword [second]
        xend
.out:   hlt
.read:  xbegin .out
        mov ebx, [first]
        xend
        xbegin .out
        mov edx, [second]
        xend
        cmp ebx, edx
        je .out
        int3

section .data
first:  dd 0
        align 64
second: dd 0

; elide: hunt --cores 2 --stop "#BP"
; expect: status 3
; expect: line run ... fails --stop #BP
