; Two stores of each core to its own place, and a load of the other's (amd3).
;
; Where two stores may be pending both cores may load 0, and where one may, 1. Which final values the original asks for
; is not sure; both are allowed. amd3 of Owens, Sarkar and Sewell, "A Better x86 Memory Model: x86-TSO", 2009. The name
; and the verdict are given from memory: the text was not at hand.
;
;   ./elide outcomes examples/litmus/two-stores-each.asm --cores 2 --entry first,second --show "eax@0 eax@1"

first:  mov dword [x], 1
        mov dword [x], 2
        mov eax, [y]
        hlt

second: mov dword [y], 1
        mov dword [y], 2
        mov eax, [x]
        hlt

section .data
x:      dd 0
        align 64
y:      dd 0

; elide: outcomes --cores 2 --entry first,second --show "eax@0 eax@1"
; expect: exactly 0 2 | 1 2 | 2 0 | 2 1 | 2 2
; elide: outcomes --cores 2 --entry first,second --show "eax@0 eax@1" --store-buffer 2
; expect: exactly 0 0 | 0 1 | 0 2 | 1 0 | 1 1 | 1 2 | 2 0 | 2 1 | 2 2
; elide: outcomes --cores 2 --entry first,second --show "eax@0 eax@1" --store-buffer 8
; expect: exactly 0 0 | 0 1 | 0 2 | 1 0 | 1 1 | 1 2 | 2 0 | 2 1 | 2 2
