# program: sort.c
# breakpoints, steps by line and by instruction, the stack, variables, and the end
break main
continue
next
step
info locals
next
next
next
print place
finish
print/x numbers[0]@4
tbreak sink if place == 20
continue
backtrace
info args
up
print place
down
stepi
stepi
x/3i $pc
nexti
until
advance 36
tbreak 38
continue
print count
print numbers[count] <= numbers[0]
delete
continue
