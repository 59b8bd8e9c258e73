# Four cores: threads chosen by hand, one let alone or all let go, watched changes, and back (../c/bank.c).
set pagination off
set confirm off
set filename-display basename
file ../c/bank.elf
target remote | "$ELIDE" gdb ../c/bank.elf --cores 4
break transfer
continue
# each core that comes to the breakpoint is told
continue
continue
info threads
delete
# another thread than the one that stopped: it steps alone, and back. With this gdb names the thread that goes back
set scheduler-locking step
thread 2
print $tm_step
stepi
stepi
print $tm_step
reverse-stepi
reverse-step
print $tm_step
thread 3
next
reverse-next
thread 4
reverse-finish
thread apply all backtrace
# a change is told to whom it is one: by a step too
set scheduler-locking off
watch transfers
continue
stepi
continue
reverse-continue
delete
# all others stand while this one goes on
set scheduler-locking on
thread 2
tbreak end
continue
info threads
set scheduler-locking off
tbreak audit
continue
reverse-continue
print $tm_step
detach
