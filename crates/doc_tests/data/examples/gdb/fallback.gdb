# A fallback path: each transaction of ../c/fallback.c aborts, and is left by the lines behind its begin.
set pagination off
set confirm off
set filename-display basename
file ../c/fallback.elf
target remote | "$ELIDE" gdb ../c/fallback.elf --cores 2
break fallback.c:76
continue
print $tm_state
print work
thread apply all print work
monitor sets
# behind the abort: the line that looks at the status
break fallback.c:80
continue
continue
continue
print $tm_state
print $tm_status
print work
print status
delete
# the work is done by the lock
watch work
continue
continue
reverse-continue
delete
set scheduler-locking on
break fallback.c:94
continue
next
until
step
info threads
delete
finish
detach
