; A transaction that commits.
;
; All of it comes at XEND: core 1 loads the counter before the transaction stores and gets 0, and after the commit 1.
; (Had it loaded between the store and the commit, its load would be a conflict: examples/reader.asm.)
; Look at the trace (begun, inside, committed) and at EAX of core 1.
;
;   ./elide run examples/commit.asm --cores 2 --entry writer,reader --steps "0 1 0 0 1" --trace --dump 0x140:4

writer: xbegin failed
        inc dword [count]
        xend
failed: hlt

reader: mov ebx, [count]        ; before the store
        mov eax, [count]        ; after it
        hlt

section .data
count:  dd 0

; elide: run --cores 2 --entry writer,reader --steps "0 1 0 0 1" --trace --show count
; expect: line 0 begun
; expect: line 0 inside
; expect: line 0 committed
; expect: line core 1 run eax=00000001 ... ebx=00000000 ...
; expect: line count=00000001 1
