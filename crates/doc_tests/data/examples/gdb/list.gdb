# A function of C by its lines, forward: next goes over a call, step into it, finish and until out of it (../c/list.c).
set pagination off
set confirm off
set filename-display basename
file ../c/list.elf
target remote | "$ELIDE" gdb ../c/list.elf --cores 2
break insert
continue
info threads
backtrace
next
next
step
finish
until
next
# each core alone: the other one stands where it stood
thread 1
print $tm_step
next
print $tm_step
thread apply all backtrace
# to the end: with the two above every one of 16 inserts is told
set $hits = 0
delete
break insert
commands
  silent
  set $hits = $hits + 1
  continue
end
continue
print $hits
print done
print $tm_state
info threads
detach
