# Back in one core among two: its own steps, its own lines and its own calls; the other's that lie between go with them.
set pagination off
set confirm off
set filename-display basename
file ../c/list.elf
target remote | "$ELIDE" gdb ../c/list.elf --cores 2
break insert
continue
continue
info threads
delete
# with this gdb names the thread that goes back
set scheduler-locking step
thread 2
print $tm_step
reverse-step
print $tm_step
reverse-next
print $tm_step
thread 1
reverse-step
reverse-stepi
print $tm_step
tbreak place_of
continue
reverse-finish
reverse-next
print $tm_step
# a watched change, forward and back, by runs and by steps
set scheduler-locking off
watch head
continue
continue
reverse-continue
set scheduler-locking step
stepi
reverse-stepi
set scheduler-locking off
reverse-continue
delete
reverse-continue
info threads
# none of its steps is left: nothing is taken back
set scheduler-locking step
thread 2
stepi
thread 1
reverse-stepi
print $tm_step
detach
