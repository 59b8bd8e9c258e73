; Store buffering, with a transaction that aborts between the store and the load of each core.
;
; A transaction that commits waits until the core's stores are in memory; one that aborts waits for nothing, and neither does
; XBEGIN. In the run below both stores are pending behind both aborts, and both loads get 0.
;
;   ./elide outcomes examples/litmus/aborted-is-no-fence.asm --cores 2 --entry first,second --show "ebx@0 ebx@1"

first:  mov dword [x], 1
        xbegin .failed
        xabort 1
.failed: mov ebx, [y]
        hlt

second: mov dword [y], 1
        xbegin .failed
        xabort 1
.failed: mov ebx, [x]
        hlt

section .data
x:      dd 0
        align 64
y:      dd 0

; elide: outcomes --cores 2 --entry first,second --show "ebx@0 ebx@1"
; expect: exactly 0 1 | 1 0 | 1 1
; elide: outcomes --cores 2 --entry first,second --show "ebx@0 ebx@1" --store-buffer 2
; expect: exactly 0 0 | 0 1 | 1 0 | 1 1
; elide: outcomes --cores 2 --entry first,second --show "ebx@0 ebx@1" --store-buffer 8
; expect: exactly 0 0 | 0 1 | 1 0 | 1 1
; elide: run --cores 2 --entry first,second --store-buffer 1 --steps "0 1 0 1 0 1 0 1 0 1 0 1" --trace
; expect: line 0 aborted 01000001
; expect: line 1 aborted 01000001
; expect: line 0 drained
; expect: line 1 drained
; expect: line core 0 stop:HLT eax=01000001 ecx=00000002 edx=00000000 ebx=00000000 ...
; expect: line core 1 stop:HLT eax=01000001 ecx=00000002 edx=00000000 ebx=00000000 ...
