#ifndef LONG_H
#define LONG_H

/* Whether streams as long as they may be get their answers: those of the limit's length and of one byte more; fields whose bits or bytes
 * would end above 2 to the 32; packets and values behind 2 to the 31. Shows what differs. */
int long_hold(void);

/* All of it must hold less memory than this: a stream is lent, and no part of it is copied. */
enum { LONG_MEMORY_MIB = 128 };

#endif
