; A store that others see late, and another one behind it (n1).
;
; Core 0 loads 0 of y while its 2 for x is pending; core 2 sees the 1 of core 1 and then that 2. Allowed where stores may
; be pending. The program is given from memory, too. n1 of Owens, Sarkar and Sewell, "A Better x86 Memory Model:
; x86-TSO", 2009. The name and the verdict are given from memory: the text was not at hand.
;
;   ./elide outcomes examples/litmus/n1.asm --cores 3 --entry first,second,third --show "eax@0 eax@2 ebx@2"

first:  mov dword [x], 2
        mov eax, [y]
        hlt

second: mov dword [y], 1
        mov dword [x], 1
        hlt

third:  mov eax, [x]
        mov ebx, [x]
        hlt

section .data
x:      dd 0
        align 64
y:      dd 0

; elide: outcomes --cores 3 --entry first,second,third --show "eax@0 eax@2 ebx@2"
; expect: exactly 0 0 0 | 0 0 1 | 0 0 2 | 0 1 1 | 0 2 1 | 0 2 2 | 1 0 0 | 1 0 1 | 1 0 2 | 1 1 1 | 1 1 2 | 1 2 1 | 1 2 2
; elide: outcomes --cores 3 --entry first,second,third --show "eax@0 eax@2 ebx@2" --store-buffer 2
; expect: exactly 0 0 0 | 0 0 1 | 0 0 2 | 0 1 1 | 0 1 2 | 0 2 1 | 0 2 2 | 1 0 0 | 1 0 1 | 1 0 2 | 1 1 1 | 1 1 2 | 1 2 1 | 1 2 2
; elide: outcomes --cores 3 --entry first,second,third --show "eax@0 eax@2 ebx@2" --store-buffer 8
; expect: exactly 0 0 0 | 0 0 1 | 0 0 2 | 0 1 1 | 0 1 2 | 0 2 1 | 0 2 2 | 1 0 0 | 1 0 1 | 1 0 2 | 1 1 1 | 1 1 2 | 1 2 1 | 1 2 2
