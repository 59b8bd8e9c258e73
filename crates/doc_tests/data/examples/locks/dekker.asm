; WRONG where stores may be pending: Dekker's lock on two cores, without a fence.
;
; A core raises its flag; while the other's is up, too, the one whose turn it is not takes its flag down and waits. Each core
; adds 1 three times, from `once` on once. On memory without store buffers no increment is lost. With them both may look at
; the other's flag while their own is pending: both find it down, and go in. What mends it is in dekker-mfence.asm.
;
;   ./elide outcomes examples/locks/dekker.asm --cores 2 --entry once,once --show count

start:  mov ebp, 3
.begin: mov esi, eax            ; my flag: 64 times my number
        shl esi, 6
        mov edi, 64             ; the other's
        sub edi, esi
        mov ebx, 1              ; the other's number
        sub ebx, eax
        mov ecx, eax            ; mine
.next:  mov dword [flag+esi], 1
.try:   cmp dword [flag+edi], 0
        je .enter
        cmp [turn], ecx
        je .soon
        mov dword [flag+esi], 0
.wait:  cmp [turn], ecx
        je .again
        pause
        jmp .wait
.again: mov dword [flag+esi], 1
.soon:  pause
        jmp .try
.enter: mov edx, [count]
        inc edx
        mov [count], edx
        mov [turn], ebx
        mov dword [flag+esi], 0
        dec ebp
        jnz .next
        hlt

once:   mov ebp, 1
        jmp start.begin

section .data
flag:   dd 0
        align 64
        dd 0
        align 64
turn:   dd 0
        align 64
count:  dd 0

; elide: outcomes --cores 2 --entry once,once --show count
; expect: exactly 2
; elide: outcomes --cores 2 --entry once,once --show count --store-buffer 1
; expect: exactly 1 | 2
; elide: outcomes --cores 2 --entry once,once --show count --store-buffer 2
; expect: exactly 1 | 2
; elide: outcomes --cores 2 --entry once,once --show count --store-buffer 8
; expect: exactly 1 | 2
; elide: run --cores 2 --entry once,once --store-buffer 1 --steps "0 0 0 0 0 0 0 0 0 0 0 0 0 0 1 1 1 1 1 1 1 1 1 1 1 0 0 1 1 0 0 0 0 0 0 0 0 1 1 1 1 1 1 1 1 1 1 1" --show count
; expect: line core 0 stop:HLT ...
; expect: line core 1 stop:HLT ...
; expect: line count=00000001 1
