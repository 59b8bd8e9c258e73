# What is refused, and in which words; what was to be written is as it was.
set pagination off
set confirm off
set filename-display basename
file ../c/bank.elf
target remote | "$ELIDE" gdb ../c/bank.elf --cores 2
python
def refused(command):
    try:
        gdb.execute(command)
        print(command + ": not refused")
    except gdb.error as fault:
        print(command + ": " + str(fault))
end
python refused("set var $eax = 5")
print $eax
python refused("set var accounts[0].balance = 3")
print accounts[0].balance
python refused("rwatch lock")
python refused("continue")
delete
python refused("awatch lock")
python refused("continue")
delete
python refused("hbreak transfer")
python refused("continue")
delete
info registers cs
print $st0
monitor help
monitor no such word
monitor event
monitor event snoop
detach
