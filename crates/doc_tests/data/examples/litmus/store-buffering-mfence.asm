; Store buffering, with MFENCE between the store and the load of each core.
;
; MFENCE waits until the core's stores are in memory, so that the core which loads later finds the other's 1: there are no two
; zeros, however many stores may be pending. The run below is that of examples/litmus/store-buffering.asm, with the fences.
;
;   ./elide outcomes examples/litmus/store-buffering-mfence.asm --cores 2 --entry first,second --show "eax@0 eax@1"

first:  mov dword [x], 1
        mfence
        mov eax, [y]
        hlt

second: mov dword [y], 1
        mfence
        mov eax, [x]
        hlt

section .data
x:      dd 0
        align 64
y:      dd 0

; elide: outcomes --cores 2 --entry first,second --show "eax@0 eax@1"
; expect: exactly 0 1 | 1 0 | 1 1
; elide: outcomes --cores 2 --entry first,second --show "eax@0 eax@1" --store-buffer 2
; expect: exactly 0 1 | 1 0 | 1 1
; elide: outcomes --cores 2 --entry first,second --show "eax@0 eax@1" --store-buffer 8
; expect: exactly 0 1 | 1 0 | 1 1
; elide: run --cores 2 --entry first,second --store-buffer 1 --steps "0 1 0 1 0 1 0 1 0 1" --trace
; expect: line 0 drained
; expect: line 1 drained
; expect: line core 0 stop:HLT eax=00000001 ...
; expect: line core 1 stop:HLT eax=00000001 ...
