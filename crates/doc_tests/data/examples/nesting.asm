; Nesting to the limit.
;
; Nesting is flat: XBEGIN raises the depth, and only the XEND that brings it to 0 commits. The eighth XBEGIN aborts the whole:
; EAX is 28h (bit 3: overflow; bit 5: it was nested), and execution goes on at the fallback of the outermost XBEGIN.
;
;   ./elide run examples/nesting.asm --steps "0 0 0 0 0 0 0 0 0 0 0 0 0 0 0" --trace

start:  xbegin outer
deeper: xbegin inner
        jmp deeper
inner:  ud2                     ; never reached: an abort takes the outermost fallback
outer:  hlt

; elide: run --steps "0 0 0 0 0 0 0 0 0 0 0 0 0 0 0" --trace
; expect: line 0 aborted 00000028
; expect: line 0 stopped HLT
; expect: line core 0 stop:HLT eax=00000028 ...
