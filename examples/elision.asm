; An elided lock on four cores.
;
; Each core adds 1 to the counter 1000 times. It tries without the lock: in a transaction it reads the lock, and where the
; lock is free it adds 1 and commits. Where the lock is taken, or the transaction aborts, it waits until the lock is
; free, and takes it.
; The counter is 4000 in the end, whatever the order of the steps.
;
;   ./elide threads examples/elision.asm --cores 4 --budget 1000000 --record schedule.txt --dump 0x1c0:4
;   ./elide replay examples/elision.asm --cores 4 --schedule schedule.txt --dump 0x1c0:4

start:  mov esi, 1000
.next:  xbegin .fall
        cmp dword [mutex], 0    ; the lock joins the read set: whoever takes it aborts this transaction
        jne .busy
        inc dword [count]
        xend
        jmp .done
.busy:  xabort 0xff
.fall:  cmp dword [mutex], 0    ; waits by loads: each xchg would abort the transactions that have read the lock
        je .take
        pause
        jmp .fall
.take:  mov eax, 1
        xchg eax, [mutex]       ; the lock itself
        test eax, eax
        jnz .fall
        inc dword [count]
        mov dword [mutex], 0
.done:  dec esi
        jnz .next
        hlt

section .data
mutex:  dd 0
        align 64                ; another line than the lock's
count:  dd 0
