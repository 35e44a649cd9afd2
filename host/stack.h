#ifndef STACK_H
#define STACK_H

#include <stddef.h>

/* Does the work in a thread whose stack was painted, and says how many bytes of it the work took: from the thread's own function down to
 * the lowest word whose paint is gone. Ends the program where that cannot be done. */
size_t stack_taken(void (*work)(void *), void *with);

#endif
