; Two loads of a place (CoRR).
;
; Loads stay in their order: a 1 and then a 0 is forbidden. CoRR of the later collections of litmus tests (Maranget,
; Sarkar and Sewell). The name and the verdict are given from memory: the text was not at hand.
;
;   ./elide outcomes examples/litmus/corr.asm --cores 2 --entry first,second --show "eax@1 ebx@1"

first:  mov dword [x], 1
        hlt

second: mov eax, [x]
        mov ebx, [x]
        hlt

section .data
x:      dd 0

; elide: outcomes --cores 2 --entry first,second --show "eax@1 ebx@1"
; expect: exactly 0 0 | 0 1 | 1 1
; elide: outcomes --cores 2 --entry first,second --show "eax@1 ebx@1" --store-buffer 2
; expect: exactly 0 0 | 0 1 | 1 1
; elide: outcomes --cores 2 --entry first,second --show "eax@1 ebx@1" --store-buffer 8
; expect: exactly 0 0 | 0 1 | 1 1
