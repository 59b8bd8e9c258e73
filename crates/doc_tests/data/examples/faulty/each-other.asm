; WRONG: a transaction is tried again for ever, and has no other way.
;
; Each core adds 1 to two counters in a transaction that begins again where it is aborted. Two such transactions can abort one
; another for ever, though each would end alone: no value is wrong, no state is without a way to an end, and the runs that
; `hunt` makes end. With `--stuck`, `outcomes` tells a schedule, and behind a bar steps of both cores that can be made again and
; again behind it. A fallback mends it, as in examples/fallback.asm.
;
;   ./elide outcomes examples/faulty/each-other.asm --cores 2 --show "count other" --stuck

start:  xbegin start
        inc dword [count]
        inc dword [other]
        xend
        hlt

section .data
count:  dd 0
        align 64
other:  dd 0

; elide: outcomes --cores 2 --show "count other" --stuck
; expect: status 3
; expect: line 00000002 00000002 ...
; expect: line cycle ...
