; Forwarding, with MFENCE behind the stores (amd10).
;
; With its store in memory before it loads, no core sees its own store before the other core does: EBX is not 0 on both.
; amd10 of Owens, Sarkar and Sewell, "A Better x86 Memory Model: x86-TSO", 2009. The name and the verdict are given from
; memory: the text was not at hand.
;
;   ./elide outcomes examples/litmus/forwarding-mfence.asm --cores 2 --entry first,second --show "eax@0 ebx@0 eax@1 ebx@1"

first:  mov dword [x], 1
        mfence
        mov eax, [x]
        mov ebx, [y]
        hlt

second: mov dword [y], 1
        mfence
        mov eax, [y]
        mov ebx, [x]
        hlt

section .data
x:      dd 0
        align 64
y:      dd 0

; elide: outcomes --cores 2 --entry first,second --show "eax@0 ebx@0 eax@1 ebx@1"
; expect: exactly 1 0 1 1 | 1 1 1 0 | 1 1 1 1
; elide: outcomes --cores 2 --entry first,second --show "eax@0 ebx@0 eax@1 ebx@1" --store-buffer 2
; expect: exactly 1 0 1 1 | 1 1 1 0 | 1 1 1 1
; elide: outcomes --cores 2 --entry first,second --show "eax@0 ebx@0 eax@1 ebx@1" --store-buffer 8
; expect: exactly 1 0 1 1 | 1 1 1 0 | 1 1 1 1
