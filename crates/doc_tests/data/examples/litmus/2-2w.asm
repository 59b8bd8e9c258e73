; Two stores of each core to two places, in opposite orders (2+2W).
;
; Stores of a core stay in their order: that both places end with the first stores is forbidden. 2+2W of the later
; collections of litmus tests (Maranget, Sarkar and Sewell). The name and the verdict are given from memory: the text was
; not at hand.
;
;   ./elide outcomes examples/litmus/2-2w.asm --cores 2 --entry first,second --show "x y"

first:  mov dword [x], 1
        mov dword [y], 2
        hlt

second: mov dword [y], 1
        mov dword [x], 2
        hlt

section .data
x:      dd 0
        align 64
y:      dd 0

; elide: outcomes --cores 2 --entry first,second --show "x y"
; expect: exactly 1 2 | 2 1 | 2 2
; elide: outcomes --cores 2 --entry first,second --show "x y" --store-buffer 2
; expect: exactly 1 2 | 2 1 | 2 2
; elide: outcomes --cores 2 --entry first,second --show "x y" --store-buffer 8
; expect: exactly 1 2 | 2 1 | 2 2
