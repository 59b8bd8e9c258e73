; Each core loads what it has just stored, and then what the other stores.
;
; A core sees its own store at once, also while it is pending, and the other core's when that is in memory. So both may see
; their own store first: EBX is 0 on both, in the run below, which no run without store buffers comes to.
;
;   ./elide outcomes examples/litmus/forwarding.asm --cores 2 --entry first,second --show "eax@0 ebx@0 eax@1 ebx@1"

first:  mov dword [x], 1
        mov eax, [x]
        mov ebx, [y]
        hlt

second: mov dword [y], 1
        mov eax, [y]
        mov ebx, [x]
        hlt

section .data
x:      dd 0
        align 64
y:      dd 0

; elide: outcomes --cores 2 --entry first,second --show "eax@0 ebx@0 eax@1 ebx@1"
; expect: exactly 1 0 1 1 | 1 1 1 0 | 1 1 1 1
; elide: outcomes --cores 2 --entry first,second --show "eax@0 ebx@0 eax@1 ebx@1" --store-buffer 2
; expect: exactly 1 0 1 0 | 1 0 1 1 | 1 1 1 0 | 1 1 1 1
; elide: outcomes --cores 2 --entry first,second --show "eax@0 ebx@0 eax@1 ebx@1" --store-buffer 8
; expect: exactly 1 0 1 0 | 1 0 1 1 | 1 1 1 0 | 1 1 1 1
; elide: run --cores 2 --entry first,second --store-buffer 1 --steps "0 1 0 1 0 1 0 1 0 1" --trace
; expect: line 0 drained
; expect: line 1 drained
; expect: line core 0 stop:HLT eax=00000001 ecx=00000002 edx=00000000 ebx=00000000 ...
; expect: line core 1 stop:HLT eax=00000001 ecx=00000002 edx=00000000 ebx=00000000 ...
