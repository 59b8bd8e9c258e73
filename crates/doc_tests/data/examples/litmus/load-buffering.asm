; Load buffering (iwp2.2, amd2).
;
; Each core loads the other's place and then stores to its own. Two ones are forbidden: a store comes to memory behind
; the loads before it. iwp2.2 and amd2 of Owens, Sarkar and Sewell, "A Better x86 Memory Model: x86-TSO", 2009. The name
; and the verdict are given from memory: the text was not at hand.
;
;   ./elide outcomes examples/litmus/load-buffering.asm --cores 2 --entry first,second --show "eax@0 eax@1"

first:  mov eax, [x]
        mov dword [y], 1
        hlt

second: mov eax, [y]
        mov dword [x], 1
        hlt

section .data
x:      dd 0
        align 64
y:      dd 0

; elide: outcomes --cores 2 --entry first,second --show "eax@0 eax@1"
; expect: exactly 0 0 | 0 1 | 1 0
; elide: outcomes --cores 2 --entry first,second --show "eax@0 eax@1" --store-buffer 2
; expect: exactly 0 0 | 0 1 | 1 0
; elide: outcomes --cores 2 --entry first,second --show "eax@0 eax@1" --store-buffer 8
; expect: exactly 0 0 | 0 1 | 1 0
