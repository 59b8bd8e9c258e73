; A message by way of a third core (ISA2).
;
; Core 2 sees what core 1 stored behind seeing the flag of core 0: then it sees the message of core 0, too. ISA2 of the
; later collections of litmus tests (Maranget, Sarkar and Sewell). The name and the verdict are given from memory: the
; text was not at hand.
;
;   ./elide outcomes examples/litmus/isa2.asm --cores 3 --entry first,second,third --show "eax@1 eax@2 ebx@2"

first:  mov dword [x], 1
        mov dword [y], 1
        hlt

second: mov eax, [y]
        mov dword [z], 1
        hlt

third:  mov eax, [z]
        mov ebx, [x]
        hlt

section .data
x:      dd 0
        align 64
y:      dd 0
        align 64
z:      dd 0

; elide: outcomes --cores 3 --entry first,second,third --show "eax@1 eax@2 ebx@2"
; expect: exactly 0 0 0 | 0 0 1 | 0 1 0 | 0 1 1 | 1 0 0 | 1 0 1 | 1 1 1
; elide: outcomes --cores 3 --entry first,second,third --show "eax@1 eax@2 ebx@2" --store-buffer 2
; expect: exactly 0 0 0 | 0 0 1 | 0 1 0 | 0 1 1 | 1 0 0 | 1 0 1 | 1 1 1
; elide: outcomes --cores 3 --entry first,second,third --show "eax@1 eax@2 ebx@2" --store-buffer 8
; expect: exactly 0 0 0 | 0 0 1 | 0 1 0 | 0 1 1 | 1 0 0 | 1 0 1 | 1 1 1
