; Each core stores to a place and then loads it (n5).
;
; That each loads what the other stores is forbidden: a core sees its own store until a later one is in memory. n5 of
; Owens, Sarkar and Sewell, "A Better x86 Memory Model: x86-TSO", 2009. The name and the verdict are given from memory:
; the text was not at hand.
;
;   ./elide outcomes examples/litmus/n5.asm --cores 2 --entry first,second --show "eax@0 eax@1"

first:  mov dword [x], 1
        mov eax, [x]
        hlt

second: mov dword [x], 2
        mov eax, [x]
        hlt

section .data
x:      dd 0

; elide: outcomes --cores 2 --entry first,second --show "eax@0 eax@1"
; expect: exactly 1 1 | 1 2 | 2 2
; elide: outcomes --cores 2 --entry first,second --show "eax@0 eax@1" --store-buffer 2
; expect: exactly 1 1 | 1 2 | 2 2
; elide: outcomes --cores 2 --entry first,second --show "eax@0 eax@1" --store-buffer 8
; expect: exactly 1 1 | 1 2 | 2 2
