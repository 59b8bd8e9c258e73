; A fallback path.
;
; CPUID aborts a transaction, whatever the machine: EAX is 0, and no bit says that a retry may succeed. So the fallback does
; the work without a transaction, with a locked instruction.
; Look at the trace: begun, aborted, and then plain steps.
;
;   ./elide run examples/fallback.asm --steps "0 0 0 0 0 0" --trace --dump 0x140:4

start:  xbegin failed
        cpuid
        xend
        hlt
failed: test eax, 2             ; may a retry succeed?
        jnz start
        lock inc dword [count]
        hlt

section .data
count:  dd 0

; elide: run --steps "0 0 0 0 0 0" --trace --show count
; expect: line 0 begun
; expect: line 0 aborted 00000000
; expect: line 0 stopped HLT
; expect: line count=00000001 1
