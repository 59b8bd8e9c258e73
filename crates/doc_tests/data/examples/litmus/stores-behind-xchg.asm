; A store behind an XCHG (iwp2.8.b).
;
; The store of XCHG is in memory before the next one: a one of y with a zero of x is forbidden. iwp2.8.b of Owens, Sarkar
; and Sewell, "A Better x86 Memory Model: x86-TSO", 2009. The name and the verdict are given from memory: the text was
; not at hand.
;
;   ./elide outcomes examples/litmus/stores-behind-xchg.asm --cores 2 --entry first,second --show "eax@1 ebx@1"

first:  mov eax, 1
        xchg eax, [x]
        mov dword [y], 1
        hlt

second: mov eax, [y]
        mov ebx, [x]
        hlt

section .data
x:      dd 0
        align 64
y:      dd 0

; elide: outcomes --cores 2 --entry first,second --show "eax@1 ebx@1"
; expect: exactly 0 0 | 0 1 | 1 1
; elide: outcomes --cores 2 --entry first,second --show "eax@1 ebx@1" --store-buffer 2
; expect: exactly 0 0 | 0 1 | 1 1
; elide: outcomes --cores 2 --entry first,second --show "eax@1 ebx@1" --store-buffer 8
; expect: exactly 0 0 | 0 1 | 1 1
