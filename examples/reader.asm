; A load is a conflict.
;
; Core 0 has stored to the counter in a transaction, so the line is in its write set. Core 1's load gets the old value, and
; dooms the transaction: its next step is the abort, since a commit would come too late for the reader.
; Look at the trace: core 1's step is plain, core 0's XEND does not come.
;
;   ./elide run examples/reader.asm --cores 2 --entry writer,reader --steps "0 0 1 0" --trace --dump 0x140:4

writer: xbegin failed
        inc dword [count]
        xend
failed: hlt

reader: mov eax, [count]
        hlt

section .data
count:  dd 0

; elide: run --cores 2 --entry writer,reader --steps "0 0 1 0" --trace --show count
; expect: line 1 plain
; expect: line 0 aborted 00000006
; expect: line count=00000000 0
