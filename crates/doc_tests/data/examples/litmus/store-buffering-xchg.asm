; Store buffering, with stores by XCHG (iwp2.8.a).
;
; XCHG with memory is locked: its store is in memory at once. Two zeros are forbidden, in EBX. iwp2.8.a of Owens, Sarkar
; and Sewell, "A Better x86 Memory Model: x86-TSO", 2009. The name and the verdict are given from memory: the text was
; not at hand.
;
;   ./elide outcomes examples/litmus/store-buffering-xchg.asm --cores 2 --entry first,second --show "ebx@0 ebx@1"

first:  mov eax, 1
        xchg eax, [x]
        mov ebx, [y]
        hlt

second: mov eax, 1
        xchg eax, [y]
        mov ebx, [x]
        hlt

section .data
x:      dd 0
        align 64
y:      dd 0

; elide: outcomes --cores 2 --entry first,second --show "ebx@0 ebx@1"
; expect: exactly 0 1 | 1 0 | 1 1
; elide: outcomes --cores 2 --entry first,second --show "ebx@0 ebx@1" --store-buffer 2
; expect: exactly 0 1 | 1 0 | 1 1
; elide: outcomes --cores 2 --entry first,second --show "ebx@0 ebx@1" --store-buffer 8
; expect: exactly 0 1 | 1 0 | 1 1
