#ifndef BUNDLES_H
#define BUNDLES_H

/* A file of bundle cases. A case is three little-endian numbers of 32 bits, the table's bytes, the streams and the buffer's bytes, two for
 * each stream, its bytes and its list's words, and then the table and the streams. Its answer is a line NUMBER LENGTH ID, a line with the
 * buffer afterwards, two digits a byte (it held EE before), a line NUMBER ENTRIES PLACE ID ID for each stream that is read, and an empty line. */
struct bundles;

struct bundles *bundles_read(const char *name, const char *answers_name);

/* Asks the library for each bundle, with results of every room, and holds every word and byte to what is due: the lists to those of
 * trevoskel_read with the same streams and rooms, whose results are held to the answers. And the same where lengths and rooms promise more
 * than there is, or are fewer. Takes a struct bundles. */
void bundles_ask(void *bundles);

/* Says how many agree; gives 0 where one does not. */
int bundles_say(const struct bundles *bundles);

#endif
