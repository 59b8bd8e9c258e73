; A core that sees its own store before others do, and a second one that looks (n7).
;
; Core 0 sees its 1 of x and not yet the 1 of y; core 2 sees the 1 of y and not yet that of x. Allowed where stores may
; be pending. n7 of Owens, Sarkar and Sewell, "A Better x86 Memory Model: x86-TSO", 2009. The name and the verdict are
; given from memory: the text was not at hand.
;
;   ./elide outcomes examples/litmus/n7.asm --cores 3 --entry first,second,third --show "eax@0 ebx@0 eax@2 ebx@2"

first:  mov dword [x], 1
        mov eax, [x]
        mov ebx, [y]
        hlt

second: mov dword [y], 1
        hlt

third:  mov eax, [y]
        mov ebx, [x]
        hlt

section .data
x:      dd 0
        align 64
y:      dd 0

; elide: outcomes --cores 3 --entry first,second,third --show "eax@0 ebx@0 eax@2 ebx@2"
; expect: exactly 1 0 0 0 | 1 0 0 1 | 1 0 1 1 | 1 1 0 0 | 1 1 0 1 | 1 1 1 0 | 1 1 1 1
; elide: outcomes --cores 3 --entry first,second,third --show "eax@0 ebx@0 eax@2 ebx@2" --store-buffer 2
; expect: exactly 1 0 0 0 | 1 0 0 1 | 1 0 1 0 | 1 0 1 1 | 1 1 0 0 | 1 1 0 1 | 1 1 1 0 | 1 1 1 1
; elide: outcomes --cores 3 --entry first,second,third --show "eax@0 ebx@0 eax@2 ebx@2" --store-buffer 8
; expect: exactly 1 0 0 0 | 1 0 0 1 | 1 0 1 0 | 1 0 1 1 | 1 1 0 0 | 1 1 0 1 | 1 1 1 0 | 1 1 1 1
