; Store buffering, with MFENCE on one core alone.
;
; The store of the other core may still be pending when that core loads: two zeros are allowed where stores may be
; pending. A fence is wanted on both. After SB of Owens, Sarkar and Sewell, "A Better x86 Memory Model: x86-TSO", 2009.
; The name and the verdict are given from memory: the text was not at hand.
;
;   ./elide outcomes examples/litmus/store-buffering-one-mfence.asm --cores 2 --entry first,second --show "eax@0 eax@1"

first:  mov dword [x], 1
        mfence
        mov eax, [y]
        hlt

second: mov dword [y], 1
        mov eax, [x]
        hlt

section .data
x:      dd 0
        align 64
y:      dd 0

; elide: outcomes --cores 2 --entry first,second --show "eax@0 eax@1"
; expect: exactly 0 1 | 1 0 | 1 1
; elide: outcomes --cores 2 --entry first,second --show "eax@0 eax@1" --store-buffer 2
; expect: exactly 0 0 | 0 1 | 1 0 | 1 1
; elide: outcomes --cores 2 --entry first,second --show "eax@0 eax@1" --store-buffer 8
; expect: exactly 0 0 | 0 1 | 1 0 | 1 1
