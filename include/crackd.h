/* A cracked table in this process: rows with a key and a payload, in partitions by key range. Queries sort the rows
   that they read a little further.

   docs/C.md of crackd says what a caller must do for each call, and what each call returns. This header says what each
   call does. In short:

   - A handle is a struct of the caller. If its bytes are all zero, it holds no table. Don't copy a handle; only the
     library uses its fields.
   - Make one call at a time on a handle, from any thread. Make no call in a signal handler, nor in the forked child of
     a process with threads.
   - A list is passed as its address and its number of items. Lists and numbers that a call writes must not overlap any
     other argument. An address is never NULL, not even that of an empty list, and is aligned for its type.
   - A key is 0 to 2^64 - 1, a payload -2^63 to 2^63 - 1. A range includes its first and its last key; it is empty if
     the first is one more than the last. The number of a row is its partition and its serial there. It is never
     reused, and an update doesn't change it.
   - Each call returns 0, or the reason why it was refused. A refused call has written nothing, except that a call for
     many items writes what was done before the refused item, and for how many items. */
#ifndef CRACKD_H
#define CRACKD_H

#include <stdbool.h>
#include <stddef.h>
#include <stdint.h>

#ifdef __cplusplus
extern "C" {
#endif

/* Why a call was refused. Those below 100 are the numbers of a server's refusals. */
enum {
    CRACKD_DONE = 0,
    /* the first key is above the last one by more than 1 */
    CRACKD_BAD_RANGE = 2,
    /* an update would move a row to another partition */
    CRACKD_KEY_OUTSIDE = 4,
    /* there is no partition with this number */
    CRACKD_NO_SUCH_PARTITION = 5,
    /* there is no memory: an allocation was refused */
    CRACKD_OUT_OF_MEMORY = 8,
    /* no cell is free for a row, and the partition has as many cells as it may have */
    CRACKD_FULL = 9,
    /* the partition has answered as many commands as it ever may */
    CRACKD_LIFE_OVER = 10,
    /* the splits don't rise, or one is 0 */
    CRACKD_BAD_SPLITS = 11,
    /* there are more than 63 splits */
    CRACKD_TOO_MANY_SPLITS = 12,
    /* a limit isn't 1 to the greatest of its kind */
    CRACKD_BAD_LIMIT = 14,
    /* the handle holds no table */
    CRACKD_CLOSED = 101,
    /* the handle holds a table already */
    CRACKD_ALREADY_OPEN = 102,
    /* lists that must be equally long aren't */
    CRACKD_LENGTHS_DIFFER = 103,
    /* there is no policy with this number */
    CRACKD_NO_SUCH_POLICY = 104
};

/* Which pending rows a query merges into the column. All policies give the same answers, at different speeds; AUTO
   chooses one. */
enum { CRACKD_COMPLETE = 0, CRACKD_GRADUAL = 1, CRACKD_RIPPLE = 2, CRACKD_AUTO = 3 };

/* The greatest limits of a partition: commands between checkpoints, cells of rows, and commands that it may answer. A
   table whose `history` is CRACKD_NO_LIMIT makes checkpoints only on request. */
#define CRACKD_NO_LIMIT UINT64_C(0)
#define CRACKD_MOST_HISTORY UINT64_C(1000000)
#define CRACKD_MOST_CELLS UINT64_C(16777215)
#define CRACKD_MOST_LIFE UINT64_C(1099511627776)

/* A table of the library, or none. An example, from a test:

       crackd_handle table = {0};
       const uint64_t splits[] = {500000};
       uint32_t status = crackd_open(&table, splits, 1, CRACKD_NO_LIMIT, CRACKD_MOST_CELLS, CRACKD_MOST_LIFE); */
typedef struct {
    void *at;
    bool is_open;
} crackd_handle;

/* The layout of a partition: the numbers of its rows, places of its column, deleted rows that are still in the column,
   rows that aren't merged yet, cells, free cells, and pieces of the column. An example, from a test:

       crackd_totals totals = {.rows = 5555};
       uint64_t lows[2] = {5555, 5555}, sizes[2] = {5555, 5555};
       uint32_t part = (uint32_t)step % PARTS, status = crackd_layout(&it->handle, part, &totals, lows, 2, sizes, 2); */
typedef struct {
    uint64_t rows, column, pending_out, pending_in, cells, free, pieces;
} crackd_totals;

/* The version. It ends with " (proved elsewhere)" if the library was built without a proof from sources that were
   proved, and with " (unproved)" if from others. The text belongs to the library. */
const char *crackd_version(void);

/* Opens an empty table in a handle that holds none. Splits are at most 63 rising keys, 1 to 2^64 - 1; each is the first
   key of a partition, so there is one partition more than splits. `history` is the number of commands after which a
   partition makes a checkpoint, 1 to CRACKD_MOST_HISTORY, or CRACKD_NO_LIMIT, 0, if it makes none by itself. `cells` is
   the greatest number of cells for the rows of a partition, 1 to CRACKD_MOST_CELLS. `life` is the greatest number of
   commands that a partition may ever answer, 1 to CRACKD_MOST_LIFE. Returns 102, 11, 12 or 14, tested in this order, or
   8; then the handle is unchanged. */
uint32_t crackd_open(crackd_handle *handle, const uint64_t *splits, size_t splits_len, uint64_t history, uint64_t cells,
                     uint64_t life);

/* Frees the memory of a table. After that the handle holds none, and can be opened again. Returns 101. */
uint32_t crackd_close(crackd_handle *handle);

/* Inserts a row, and writes its number. Returns 101, 10, 9 or 8. */
uint32_t crackd_insert(crackd_handle *handle, uint64_t key, int64_t payload, uint32_t *part, uint64_t *serial);

/* Deletes a row. Writes 1 to `gone`, and the row's key and payload; if there is no such row, writes only 0 to `gone`.
   Returns 101, 5, 10 or 8. */
uint32_t crackd_delete(crackd_handle *handle, uint32_t part, uint64_t serial, uint8_t *gone, uint64_t *key,
                       int64_t *payload);

/* Changes the key and the payload of a row. Writes 1 to `found`, or 0 if there is no such row. Returns 101, 5, 4, 10, 9
   or 8. */
uint32_t crackd_update(crackd_handle *handle, uint32_t part, uint64_t serial, uint64_t key, int64_t payload,
                       uint8_t *found);

/* Counts the rows of a range. Returns 101, 104, 2, 10 or 8. */
uint32_t crackd_count(crackd_handle *handle, uint32_t policy, uint64_t first, uint64_t last, uint64_t *count);

/* Adds up the payloads of a range: the sum is exactly `high` * 2^64 + `low`. Returns what crackd_count does. */
uint32_t crackd_sum(crackd_handle *handle, uint32_t policy, uint64_t first, uint64_t last, uint64_t *low,
                    int64_t *high);

/* Lists the rows of a range by partition, and in each partition by rising serial: the first rows, as many as the lists
   have room for. Writes to `found` the number of all rows of the range, which may be greater. So with empty lists it
   only counts. The four lists have the same length. Returns 101, 103, 104, 2, 10 or 8. */
uint32_t crackd_select(crackd_handle *handle, uint32_t policy, uint64_t first, uint64_t last, uint32_t *parts,
                       size_t parts_len, uint64_t *serials, size_t serials_len, uint64_t *keys, size_t keys_len,
                       int64_t *payloads, size_t payloads_len, uint64_t *found);

/* Writes the layout of a partition, and the least key and the number of rows of each piece of its column, of the first
   pieces only if the lists have no room for all. The two lists have the same length. Changes nothing. Returns 101, 103,
   5 or 8. */
uint32_t crackd_layout(crackd_handle *handle, uint32_t part, crackd_totals *totals, uint64_t *lows, size_t lows_len,
                       uint64_t *sizes, size_t sizes_len);

/* Makes a checkpoint of a partition, and writes how many commands the partition has answered since the last one. Rows
   and their numbers don't change. With a limit of the history a partition also makes one by itself when it is due.
   Returns 101 or 5. */
uint32_t crackd_checkpoint(crackd_handle *handle, uint32_t part, uint64_t *folded);

/* Writes how many commands the partitions have answered since the opening: one for each row to be inserted, updated or
   deleted, and for each query one for each partition that its range meets. Returns 101. */
uint32_t crackd_accepted(crackd_handle *handle, uint64_t *accepted);

/* A call for many items does them in order, and writes to `done` how many were done. If not all were, the status says
   why the next one was refused; the items after it weren't tried, and the rest of each written list is unchanged. All
   lists of a call must have the same length, else it returns 103 and writes nothing. */

/* crackd_insert of each key and payload. */
uint32_t crackd_insert_many(crackd_handle *handle, const uint64_t *keys, size_t keys_len, const int64_t *payloads,
                            size_t payloads_len, uint32_t *parts, size_t parts_len, uint64_t *serials,
                            size_t serials_len, uint64_t *done);

/* crackd_delete of each row. Writes 1 for a row that existed, 0 for one that didn't. */
uint32_t crackd_delete_many(crackd_handle *handle, const uint32_t *parts, size_t parts_len, const uint64_t *serials,
                            size_t serials_len, uint8_t *gone, size_t gone_len, uint64_t *done);

/* crackd_update of each row. Writes 1 for a row that exists, 0 for one that doesn't. */
uint32_t crackd_update_many(crackd_handle *handle, const uint32_t *parts, size_t parts_len, const uint64_t *serials,
                            size_t serials_len, const uint64_t *keys, size_t keys_len, const int64_t *payloads,
                            size_t payloads_len, uint8_t *found, size_t found_len, uint64_t *done);

/* crackd_count of each range. */
uint32_t crackd_count_many(crackd_handle *handle, uint32_t policy, const uint64_t *firsts, size_t firsts_len,
                           const uint64_t *lasts, size_t lasts_len, uint64_t *counts, size_t counts_len,
                           uint64_t *done);

/* crackd_sum of each range. Writes the low and the high halves of the sums to two lists. */
uint32_t crackd_sum_many(crackd_handle *handle, uint32_t policy, const uint64_t *firsts, size_t firsts_len,
                         const uint64_t *lasts, size_t lasts_len, uint64_t *lows, size_t lows_len, int64_t *highs,
                         size_t highs_len, uint64_t *done);

#ifdef __cplusplus
}
#endif

#endif
