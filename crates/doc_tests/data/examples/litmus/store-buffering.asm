; Store buffering, without transactions.
;
; Each core stores to its own place and loads the other's (the litmus test SB of Owens, Sarkar and Sewell, "A Better x86
; Memory Model: x86-TSO", 2009). Hardware may buffer both stores, and then both loads get 0. Without store buffers one core's
; store comes first: look for an outcome of two zeros, there is none. Where a store of each core may be pending, the run below
; has them.
;
;   ./elide outcomes examples/litmus/store-buffering.asm --cores 2 --entry first,second --show "eax@0 eax@1"

first:  mov dword [x], 1
        mov eax, [y]
        hlt

second: mov dword [y], 1
        mov eax, [x]
        hlt

section .data
x:      dd 0
        align 64
y:      dd 0

; elide: outcomes --cores 2 --entry first,second --show "eax@0 eax@1"
; expect: exactly 0 1 | 1 0 | 1 1
; elide: outcomes --cores 2 --entry first,second --show "eax@0 eax@1" --store-buffer 2
; expect: exactly 0 0 | 0 1 | 1 0 | 1 1
; elide: outcomes --cores 2 --entry first,second --show "eax@0 eax@1" --store-buffer 8
; expect: exactly 0 0 | 0 1 | 1 0 | 1 1
; elide: run --cores 2 --entry first,second --store-buffer 1 --steps "0 1 0 1 0 1 0 1" --trace
; expect: line 0 drained
; expect: line 1 drained
; expect: line core 0 stop:HLT eax=00000000 ...
; expect: line core 1 stop:HLT eax=00000000 ...
