# program: faults.c
# a break instruction, a word that is none, and accesses outside of memory
continue
print $pc == &at_break
set $pc = $pc + 4
continue
print $pc == &at_illegal
set $pc = $pc + 4
signal 0
print $pc == &at_load
set $pc = $pc + 4
signal 0
print $pc == &at_store
set $pc = $pc + 4
signal 0
