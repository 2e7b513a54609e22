/* A new file gets its name when it is whole: it is written to a temporary name beside, synced and renamed, and its
 * folder is synced. */
#ifndef COLUMNS_STORE_H
#define COLUMNS_STORE_H

#include "result.h"

/* Where a new file goes. */
struct store {
    const char *name; /* as the user said it */
    bool force;       /* whether what is there may be replaced */
    int folder;
    struct bytes base;      /* its name in the folder, behind all links, */
    struct bytes temporary; /* and the one that it has until it is whole */
    bool is_there;
    struct stat old;
};

/* Looks where the name leads, and refuses what cannot become a file of ours. False where there is a complaint. */
bool store_open(struct store *store, const char *name, bool force, struct result *result);
void store_close(struct store *store);

/* Writes the bytes, and gives them the name. From the moment on at which the file gets its name no signal is heard any
 * more, so that a run which is ended by one has not given it. False where there is a complaint; what was there is as it
 * was then. */
bool store_put(struct store *store, const uint8_t *bytes, size_t length, struct result *result);

/* A file without a name in the folder, for bytes that wait; below 0 where there is a complaint. */
int store_spool(struct store *store, struct result *result);

/* Writes all bytes to an open file; false where a write fails. */
bool store_write(int fd, const uint8_t *bytes, size_t length);

#endif
