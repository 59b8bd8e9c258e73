; Store buffering on three cores, in a ring (3.SB).
;
; Each core stores to its own place and loads that of the next. Three zeros are allowed where stores may be pending.
; After SB of Owens, Sarkar and Sewell, "A Better x86 Memory Model: x86-TSO", 2009; the name is that of later
; collections. The name and the verdict are given from memory: the text was not at hand.
;
;   ./elide outcomes examples/litmus/store-buffering-three.asm --cores 3 --entry first,second,third --show "eax@0 eax@1 eax@2"

first:  mov dword [x], 1
        mov eax, [y]
        hlt

second: mov dword [y], 1
        mov eax, [z]
        hlt

third:  mov dword [z], 1
        mov eax, [x]
        hlt

section .data
x:      dd 0
        align 64
y:      dd 0
        align 64
z:      dd 0

; elide: outcomes --cores 3 --entry first,second,third --show "eax@0 eax@1 eax@2"
; expect: exactly 0 0 1 | 0 1 0 | 0 1 1 | 1 0 0 | 1 0 1 | 1 1 0 | 1 1 1
; elide: outcomes --cores 3 --entry first,second,third --show "eax@0 eax@1 eax@2" --store-buffer 2
; expect: exactly 0 0 0 | 0 0 1 | 0 1 0 | 0 1 1 | 1 0 0 | 1 0 1 | 1 1 0 | 1 1 1
; elide: outcomes --cores 3 --entry first,second,third --show "eax@0 eax@1 eax@2" --store-buffer 8
; expect: exactly 0 0 0 | 0 0 1 | 0 1 0 | 0 1 1 | 1 0 0 | 1 0 1 | 1 1 0 | 1 1 1
