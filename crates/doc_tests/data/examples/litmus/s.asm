; Two stores, and a load and a store (S).
;
; Core 1 sees the second store of core 0 and stores to the place of the first: that x ends as core 0 left it is
; forbidden. S of the later collections of litmus tests (Maranget, Sarkar and Sewell). The name and the verdict are given
; from memory: the text was not at hand.
;
;   ./elide outcomes examples/litmus/s.asm --cores 2 --entry first,second --show "eax@1 x"

first:  mov dword [x], 2
        mov dword [y], 1
        hlt

second: mov eax, [y]
        mov dword [x], 1
        hlt

section .data
x:      dd 0
        align 64
y:      dd 0

; elide: outcomes --cores 2 --entry first,second --show "eax@1 x"
; expect: exactly 0 1 | 0 2 | 1 1
; elide: outcomes --cores 2 --entry first,second --show "eax@1 x" --store-buffer 2
; expect: exactly 0 1 | 0 2 | 1 1
; elide: outcomes --cores 2 --entry first,second --show "eax@1 x" --store-buffer 8
; expect: exactly 0 1 | 0 2 | 1 1
