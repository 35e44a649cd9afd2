#ifndef NAMES_H
#define NAMES_H

/* Whether the names of trevoskel.h stand for what they say: each number that refuses is the answer to a table, a stream or a bundle which is
 * as its name says; the words of results and entries, and the kinds of entries, are those of a check, of three readings and of five bundles.
 * Shows what differs. */
int names_hold(void);

#endif
