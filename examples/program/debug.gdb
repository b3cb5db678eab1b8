# a session of gdb through the bridge; each command is printed behind a `+` before what it answers
set trace-commands on
target remote 127.0.0.1:3333
break sort
continue
backtrace
print *list@count
next
next
info locals
info threads
tbreak main.c:14 if next == 3
continue
print *list@count
finish
print numbers
next
display sum
next
continue
