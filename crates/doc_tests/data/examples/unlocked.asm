; An increment without LOCK is two steps.
;
; Outside a transaction INC loads in one step and stores in the next, and another core can step between: both cores load
; 0, and both store 1. With LOCK (examples/locked.asm) it is one step, and no increment is lost.
; Look at the trace (loaded, then plain) and at the last line: the counter is 1 after two increments.
;
;   ./elide run examples/unlocked.asm --cores 2 --steps "0 1 0 1" --trace --dump 0x140:4

start:  inc dword [count]
        hlt

section .data
count:  dd 0
