; A core loads what it has just stored (iwp2.3.b).
;
; It finds its own store, whether that is pending or in memory: a zero is forbidden. iwp2.3.b of Owens, Sarkar and
; Sewell, "A Better x86 Memory Model: x86-TSO", 2009. The name and the verdict are given from memory: the text was not at
; hand.
;
;   ./elide outcomes examples/litmus/own-store.asm --cores 1 --entry first --show "eax@0"

first:  mov dword [x], 1
        mov eax, [x]
        hlt

section .data
x:      dd 0

; elide: outcomes --cores 1 --entry first --show "eax@0"
; expect: exactly 1
; elide: outcomes --cores 1 --entry first --show "eax@0" --store-buffer 2
; expect: exactly 1
; elide: outcomes --cores 1 --entry first --show "eax@0" --store-buffer 8
; expect: exactly 1
