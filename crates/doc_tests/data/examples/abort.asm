; Explicit abort codes.
;
; XABORT gives its argument in bits 31 to 24 of EAX, and sets bit 0. The fallback reads it and chooses what to do.
; Look at EAX after the abort (5a000001), and at EBX, which got the code.
;
;   ./elide run examples/abort.asm --steps "0 0 0 0 0 0 0" --trace

start:  xbegin failed
        xabort 0x5a
failed: mov ebx, eax
        shr ebx, 24
        cmp ebx, 0x5a
        jne start
        hlt

; elide: run --steps "0 0 0 0 0 0 0" --trace
; expect: line 0 begun
; expect: line 0 aborted 5a000001
; expect: line 0 stopped HLT
; expect: line core 0 stop:HLT eax=5a000001 ... ebx=0000005a ...
