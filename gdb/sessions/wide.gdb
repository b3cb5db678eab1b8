# program: wide.c
# numbers of 64 bits, and a watched variable, for which gdb steps
set can-use-hw-watchpoints 0
break main
continue
next
print operands
tbreak 19
continue
watch fraction
continue
continue
info watchpoints
delete
continue
