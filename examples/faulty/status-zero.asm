; WRONG: the fallback takes a status of 0 for success.
;
; It asks what xbegin left in eax, and not where the program went on. Hardware aborts with 0 where the cause is none of the
; program's, as an interrupt, and then an increment is lost. The program's own aborts have other statuses here, so no order of
; steps shows the fault; events do. Each core adds 1 three times; the counter is 6 in the end on two cores, if none is lost.
; Its fixed form is examples/fixed/any-status.asm.
;
;   ./elide hunt examples/faulty/status-zero.asm --cores 2 --check "count == 6" --events draw
;   ./elide outcomes examples/faulty/status-zero.asm --cores 2 --entry once,once --show count --events interrupt

start:  mov esi, 3
.next:  xbegin .fall
        cmp dword [mutex], 0
        jne .busy
        inc dword [count]
        xend
        jmp .done
.busy:  xabort 0xff
.fall:  test eax, eax
        jz .done
.lock:  mov eax, 1
        xchg eax, [mutex]
        test eax, eax
        jz .own
        pause
        jmp .lock
.own:   mov ebx, [count]
        inc ebx
        mov [count], ebx
        mov dword [mutex], 0
.done:  dec esi
        jnz .next
        hlt

once:   mov esi, 1
        jmp start.next

section .data
mutex:  dd 0
        align 64
count:  dd 0

; elide: hunt --cores 2 --check "count == 6" --events draw
; expect: status 3
; expect: line run ... fails --check count == 6
; elide: outcomes --cores 2 --entry once,once --show count
; expect: exactly 2
; elide: outcomes --cores 2 --entry once,once --show count --events interrupt
; expect: exactly 0 | 1 | 2
