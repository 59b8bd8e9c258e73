; Two stores, and a store and a load (R).
;
; Core 1 stores to y last and loads 0 of x: allowed where its store may be pending. R of the later collections of litmus
; tests (Maranget, Sarkar and Sewell). The name and the verdict are given from memory: the text was not at hand.
;
;   ./elide outcomes examples/litmus/r.asm --cores 2 --entry first,second --show "eax@1 y"

first:  mov dword [x], 1
        mov dword [y], 1
        hlt

second: mov dword [y], 2
        mov eax, [x]
        hlt

section .data
x:      dd 0
        align 64
y:      dd 0

; elide: outcomes --cores 2 --entry first,second --show "eax@1 y"
; expect: exactly 0 1 | 1 1 | 1 2
; elide: outcomes --cores 2 --entry first,second --show "eax@1 y" --store-buffer 2
; expect: exactly 0 1 | 0 2 | 1 1 | 1 2
; elide: outcomes --cores 2 --entry first,second --show "eax@1 y" --store-buffer 8
; expect: exactly 0 1 | 0 2 | 1 1 | 1 2
