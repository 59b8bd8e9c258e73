; The right form of examples/faulty/status-zero.asm and gives-up.asm: three tries, and then the lock, whatever the status.
;
; Only xabort's bit is asked for, to wait until the lock is free. From `once` on each core adds 1 once, with two tries: few
; enough steps for outcomes, which finds that it survives an abort from outside of the program at every step.
;
;   ./elide hunt examples/fixed/any-status.asm --cores 2 --check "count == 6" --events draw --expect-halt --limit 10000
;   ./elide outcomes examples/fixed/any-status.asm --cores 2 --entry once,once --show count --events interrupt,eviction,snoop

start:  mov esi, 3
        mov edx, 3              ; tries
.next:  mov edi, edx
.try:   xbegin .fall
        cmp dword [mutex], 0
        jne .busy
        inc dword [count]
        xend
        jmp .done
.busy:  xabort 0xff
.fall:  test eax, 1             ; xabort: the lock is taken
        jnz .wait
        dec edi
        jnz .try
        jmp .lock
.wait:  pause
        cmp dword [mutex], 0
        jne .wait
        dec edi
        jnz .try
.lock:  mov eax, 1
        xchg eax, [mutex]
        test eax, eax
        jz .own
        pause
        jmp .lock
.own:   mov ebx, [count]
        inc ebx
        mov [count], ebx
        mov dword [mutex], 0
.done:  dec esi
        jnz .next
        hlt

once:   mov esi, 1
        mov edx, 2
        jmp start.next

section .data
mutex:  dd 0
        align 64
count:  dd 0

; elide: hunt --cores 2 --check "count == 6" --events draw --expect-halt --limit 10000 --runs 1000
; expect: no failure
; elide: outcomes --cores 2 --entry once,once --show count --events interrupt,eviction,snoop --mem 12288 --reads 4 --writes 4
; expect: exactly 2
