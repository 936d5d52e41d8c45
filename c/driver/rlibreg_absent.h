/* Stands in for each header of C++'s standard library if rlibreg-g++ finds no such library. */
#error "C++'s standard library isn't installed for this gcc: install it (rlibreg-gcc(1), "C++"), or \
compile with -nostdlib++ what needs none of it"
