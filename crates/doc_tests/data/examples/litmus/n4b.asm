; Each core loads a place and then stores to it (n4b).
;
; That each loads what the other stores is forbidden. n4b of Owens, Sarkar and Sewell, "A Better x86 Memory Model:
; x86-TSO", 2009. The name and the verdict are given from memory: the text was not at hand.
;
;   ./elide outcomes examples/litmus/n4b.asm --cores 2 --entry first,second --show "eax@0 eax@1"

first:  mov eax, [x]
        mov dword [x], 1
        hlt

second: mov eax, [x]
        mov dword [x], 2
        hlt

section .data
x:      dd 0

; elide: outcomes --cores 2 --entry first,second --show "eax@0 eax@1"
; expect: exactly 0 0 | 0 1 | 2 0
; elide: outcomes --cores 2 --entry first,second --show "eax@0 eax@1" --store-buffer 2
; expect: exactly 0 0 | 0 1 | 2 0
; elide: outcomes --cores 2 --entry first,second --show "eax@0 eax@1" --store-buffer 8
; expect: exactly 0 0 | 0 1 | 2 0
