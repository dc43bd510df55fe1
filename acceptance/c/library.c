/* Uses each call of crackd.h, and compares the answers with a plain list of rows. With refusing.c preloaded it also has
   each call for memory refused in turn.

   Prints what is wrong, and returns 1; otherwise prints how many calls for memory were refused, and returns 0. */

#include "crackd.h"

#include <inttypes.h>
#include <stdio.h>
#include <stdlib.h>
#include <string.h>

enum { ROWS = 64, KEYS = 100, PARTS = 3, MANY = 5 };

/* those of refusing.c, if it is preloaded */
__attribute__((weak)) void refuse_switch(int is_on);
__attribute__((weak)) void refuse_calls(uint64_t first, uint64_t last);
__attribute__((weak)) uint64_t refuse_told(void);

#define EXPECT(wanted, got) expect(#got, __LINE__, (int64_t)(wanted), (int64_t)(got))

static void expect(const char *what, int line, int64_t wanted, int64_t got) {
    if (wanted == got)
        return;
    printf("library.c:%d: %s is %" PRId64 ", wanted %" PRId64 "\n", line, what, got, wanted);
    exit(1);
}

/* A row of the list. */
typedef struct {
    uint32_t part;
    uint64_t serial, key;
    int64_t payload;
    bool is_there;
} row;

/* A table, and a list of the same rows. */
typedef struct {
    crackd_handle handle;
    row rows[ROWS];
    size_t count;
} pair;

static const uint64_t SPLITS[] = {30, 70};

static uint32_t part_of(uint64_t key) { return key < SPLITS[0] ? 0 : key < SPLITS[1] ? 1 : 2; }

static void place(pair *it, uint32_t part, uint64_t serial, uint64_t key, int64_t payload) {
    EXPECT(part_of(key), part);
    for (size_t at = 0; at < it->count; at++)
        EXPECT(false, it->rows[at].part == part && it->rows[at].serial == serial);
    it->rows[it->count++] = (row){part, serial, key, payload, true};
}

/* Compares all rows, by count, sum and select, with the list. */
static void check_rows(pair *it, uint64_t first, uint64_t last) {
    uint64_t count = 7, low = 7, found = 7, wanted = 0;
    int64_t sum = 0, high = 7;
    for (size_t at = 0; at < it->count; at++)
        if (it->rows[at].is_there && first <= it->rows[at].key && it->rows[at].key <= last) {
            wanted++;
            sum += it->rows[at].payload;
        }
    EXPECT(0, crackd_count(&it->handle, CRACKD_AUTO, first, last, &count));
    EXPECT(wanted, count);
    EXPECT(0, crackd_sum(&it->handle, CRACKD_RIPPLE, first, last, &low, &high));
    EXPECT(sum, (int64_t)low);
    EXPECT(sum < 0 ? -1 : 0, high);
    uint32_t parts[ROWS];
    uint64_t serials[ROWS], keys[ROWS];
    int64_t payloads[ROWS];
    EXPECT(0, crackd_select(&it->handle, CRACKD_GRADUAL, first, last, parts, ROWS, serials, ROWS, keys, ROWS, payloads,
                            ROWS, &found));
    EXPECT(wanted, found);
    for (size_t k = 0; k < found; k++) {
        size_t at = 0;
        while (at < it->count && !(it->rows[at].part == parts[k] && it->rows[at].serial == serials[k]))
            at++;
        EXPECT(true, at < it->count && it->rows[at].is_there);
        EXPECT(it->rows[at].key, keys[k]);
        EXPECT(it->rows[at].payload, payloads[k]);
        EXPECT(true, k == 0 || parts[k - 1] < parts[k] || (parts[k - 1] == parts[k] && serials[k - 1] < serials[k]));
    }
}

/* One call of each kind that changes or asks. Returns its status; if that is 0 the list is changed alike. */
static uint32_t call_insert(pair *it, int step) {
    uint32_t part = 99;
    uint64_t serial = 99, key = (uint64_t)step * 37 % KEYS;
    uint32_t status = crackd_insert(&it->handle, key, step - 20, &part, &serial);
    if (status == 0)
        place(it, part, serial, key, step - 20);
    else
        EXPECT(true, part == 99 && serial == 99);
    return status;
}

static uint32_t call_delete(pair *it, int step) {
    row *one = &it->rows[(size_t)step % it->count];
    uint8_t gone = 9;
    uint64_t key = 1000;
    int64_t payload = 1000;
    uint32_t status = crackd_delete(&it->handle, one->part, one->serial, &gone, &key, &payload);
    EXPECT(status ? 9 : one->is_there, gone);
    EXPECT(gone == 1 ? one->key : 1000, key);
    EXPECT(gone == 1 ? one->payload : 1000, payload);
    if (status == 0)
        one->is_there = false;
    return status;
}

static uint32_t call_update(pair *it, int step) {
    row *one = &it->rows[(size_t)step * 5 % it->count];
    uint8_t found = 9;
    uint64_t key = one->part == 0 ? 11 : one->part == 1 ? 44 : 88;
    uint32_t status = crackd_update(&it->handle, one->part, one->serial, key, step * 100, &found);
    EXPECT(status ? 9 : one->is_there, found);
    if (status == 0) {
        one->key = key;
        one->payload = step * 100;
    }
    return status;
}

static uint32_t call_count(pair *it, int step) {
    uint64_t count = 5555;
    uint32_t status = crackd_count(&it->handle, (uint32_t)step % 4, 10, 80, &count);
    EXPECT(true, status == 0 || count == 5555);
    (void)it;
    return status;
}

static uint32_t call_sum(pair *it, int step) {
    uint64_t low = 5555;
    int64_t high = 5555;
    uint32_t status = crackd_sum(&it->handle, (uint32_t)step % 4, 0, UINT64_MAX, &low, &high);
    EXPECT(true, status == 0 || (low == 5555 && high == 5555));
    return status;
}

static uint32_t call_select(pair *it, int step) {
    uint32_t parts[2] = {99, 99};
    uint64_t serials[2] = {99, 99}, keys[2] = {999, 999}, found = 5555;
    int64_t payloads[2] = {999, 999};
    uint32_t status =
        crackd_select(&it->handle, (uint32_t)step % 4, 0, 50, parts, 2, serials, 2, keys, 2, payloads, 2, &found);
    EXPECT(true, status == 0 ||
                     (found == 5555 && parts[0] == 99 && serials[1] == 99 && keys[0] == 999 && payloads[1] == 999));
    return status;
}

static uint32_t call_checkpoint(pair *it, int step) {
    uint64_t folded = 5555;
    uint32_t status = crackd_checkpoint(&it->handle, (uint32_t)step % PARTS, &folded);
    EXPECT(true, status == 0 ? folded <= 8 : folded == 5555);
    return status;
}

static uint32_t call_layout(pair *it, int step) {
    crackd_totals totals = {.rows = 5555};
    uint64_t lows[2] = {5555, 5555}, sizes[2] = {5555, 5555};
    uint32_t part = (uint32_t)step % PARTS, status = crackd_layout(&it->handle, part, &totals, lows, 2, sizes, 2);
    uint64_t rows = 0;
    for (size_t at = 0; at < it->count; at++)
        rows += it->rows[at].is_there && it->rows[at].part == part;
    EXPECT(status ? 5555 : rows, totals.rows);
    if (status == 0) {
        EXPECT(part == 0 ? 0 : SPLITS[part - 1], lows[0]);
        EXPECT(totals.column + totals.pending_in - totals.pending_out, totals.rows);
        EXPECT(true, totals.pieces >= 1 && totals.free <= totals.cells && sizes[0] <= totals.column);
    }
    return status;
}

/* The same for the calls for many; the items that were done are done in the list. */
static uint32_t call_insert_many(pair *it, int step) {
    uint64_t keys[MANY], serials[MANY], done = 99;
    int64_t payloads[MANY];
    uint32_t parts[MANY];
    for (int k = 0; k < MANY; k++) {
        keys[k] = (uint64_t)(step * 13 + k * 29) % KEYS;
        payloads[k] = k - step;
        parts[k] = 99;
        serials[k] = 99;
    }
    uint32_t status = crackd_insert_many(&it->handle, keys, MANY, payloads, MANY, parts, MANY, serials, MANY, &done);
    EXPECT(true, status == 0 ? done == MANY : done < MANY);
    for (uint64_t k = 0; k < done; k++)
        place(it, parts[k], serials[k], keys[k], payloads[k]);
    for (uint64_t k = done; k < MANY; k++)
        EXPECT(true, parts[k] == 99 && serials[k] == 99);
    return status;
}

static uint32_t call_delete_many(pair *it, int step) {
    uint64_t serials[MANY], done = 99;
    uint32_t parts[MANY];
    uint8_t gone[MANY];
    row *ones[MANY];
    for (int k = 0; k < MANY; k++) {
        ones[k] = &it->rows[(size_t)(step + 3 * k) % it->count];
        parts[k] = ones[k]->part;
        serials[k] = ones[k]->serial;
        gone[k] = 9;
    }
    uint32_t status = crackd_delete_many(&it->handle, parts, MANY, serials, MANY, gone, MANY, &done);
    EXPECT(true, status == 0 ? done == MANY : done < MANY);
    for (uint64_t k = 0; k < MANY; k++) {
        EXPECT(k < done ? ones[k]->is_there : 9, gone[k]);
        if (k < done)
            ones[k]->is_there = false;
    }
    return status;
}

static uint32_t call_update_many(pair *it, int step) {
    uint64_t serials[MANY], keys[MANY], done = 99;
    uint32_t parts[MANY];
    int64_t payloads[MANY];
    uint8_t found[MANY];
    row *ones[MANY];
    for (int k = 0; k < MANY; k++) {
        ones[k] = &it->rows[(size_t)(step * 2 + k) % it->count];
        parts[k] = ones[k]->part;
        serials[k] = ones[k]->serial;
        keys[k] = (uint64_t)(ones[k]->part == 0 ? 3 : ones[k]->part == 1 ? 33 : 73) + (uint64_t)k;
        payloads[k] = -7 * k;
        found[k] = 9;
    }
    uint32_t status =
        crackd_update_many(&it->handle, parts, MANY, serials, MANY, keys, MANY, payloads, MANY, found, MANY, &done);
    EXPECT(true, status == 0 ? done == MANY : done < MANY);
    for (uint64_t k = 0; k < MANY; k++) {
        EXPECT(k < done ? ones[k]->is_there : 9, found[k]);
        if (k < done) {
            ones[k]->key = keys[k];
            ones[k]->payload = payloads[k];
        }
    }
    return status;
}

static uint32_t call_count_many(pair *it, int step) {
    uint64_t firsts[3] = {0, 20, 50}, lasts[3] = {99, 19, 60}, counts[3] = {5555, 5555, 5555}, done = 99, rows = 0;
    uint32_t status = crackd_count_many(&it->handle, (uint32_t)step % 4, firsts, 3, lasts, 3, counts, 3, &done);
    EXPECT(true, status == 0 ? done == 3 : done < 3);
    for (size_t at = 0; at < it->count; at++)
        rows += it->rows[at].is_there;
    EXPECT(done > 0 ? rows : 5555, counts[0]);
    EXPECT(done > 1 ? 0 : 5555, counts[1]);
    EXPECT(true, done > 2 ? counts[2] <= rows : counts[2] == 5555);
    return status;
}

static uint32_t call_sum_many(pair *it, int step) {
    uint64_t firsts[2] = {0, 200}, lasts[2] = {99, 300}, lows[2] = {5555, 5555}, done = 99;
    int64_t highs[2] = {5555, 5555}, sum = 0;
    uint32_t status = crackd_sum_many(&it->handle, (uint32_t)step % 4, firsts, 2, lasts, 2, lows, 2, highs, 2, &done);
    EXPECT(true, status == 0 ? done == 2 : done < 2);
    for (size_t at = 0; at < it->count; at++)
        sum += it->rows[at].is_there ? it->rows[at].payload : 0;
    EXPECT(done > 0 ? sum : 5555, (int64_t)lows[0]);
    EXPECT(done > 0 ? (sum < 0 ? -1 : 0) : 5555, highs[0]);
    EXPECT(done > 1 ? 0 : 5555, lows[1]);
    return status;
}

typedef uint32_t step_call(pair *it, int step);

static step_call *const STEPS[] = {
    call_insert,   call_insert_many, call_count,      call_insert,      call_update, call_sum,         call_insert_many,
    call_delete,   call_select,      call_count_many, call_update_many, call_layout, call_insert_many, call_delete_many,
    call_sum_many, call_checkpoint,  call_insert,     call_count,       call_delete, call_layout,
};

/* Opens a table with small histories, so that there are checkpoints in between. */
static void open_pair(pair *it) {
    memset(it, 0, sizeof *it);
    uint32_t status = crackd_open(&it->handle, SPLITS, 2, 8, CRACKD_MOST_CELLS, CRACKD_MOST_LIFE);
    if (status) {
        EXPECT(CRACKD_OUT_OF_MEMORY, status);
        EXPECT(false, it->handle.is_open);
        EXPECT(0, crackd_open(&it->handle, SPLITS, 2, 8, CRACKD_MOST_CELLS, CRACKD_MOST_LIFE));
    }
    EXPECT(true, it->handle.is_open);
}

static void switch_refusals(int is_on) {
    if (refuse_switch)
        refuse_switch(is_on);
}

/* All steps, while the call for memory with this number is refused. What a step did before the refusal stays, and
   nothing else; a second try is answered. */
static void run_steps(uint64_t number) {
    pair it;
    if (number)
        refuse_calls(number, number);
    switch_refusals(1);
    open_pair(&it);
    for (size_t k = 0; k < sizeof STEPS / sizeof *STEPS; k++) {
        uint32_t status = STEPS[k](&it, (int)k);
        if (status) {
            EXPECT(CRACKD_OUT_OF_MEMORY, status);
            switch_refusals(0);
            check_rows(&it, 0, UINT64_MAX);
            switch_refusals(1);
            EXPECT(0, STEPS[k](&it, (int)k));
        }
        EXPECT(true, it.count + MANY <= ROWS);
    }
    switch_refusals(0);
    check_rows(&it, 0, UINT64_MAX);
    check_rows(&it, 25, 75);
    EXPECT(0, crackd_close(&it.handle));
    EXPECT(CRACKD_CLOSED, crackd_close(&it.handle));
}

/* Has each call for memory refused in turn, until none is left. Returns how many were. */
static uint64_t refuse_each(void) {
    if (!refuse_told)
        return 0;
    for (uint64_t number = 1;; number++) {
        run_steps(number);
        if (refuse_told() == 0)
            return number - 1;
    }
}

/* Calls on a handle without a table return 101, and write nothing. */
static void check_closed(void) {
    crackd_handle none = {0};
    uint32_t part = 5, parts[1] = {5};
    uint64_t number = 5, other = 5, list[1] = {5}, written[1] = {5};
    int64_t payload = 5, payloads[1] = {5};
    uint8_t is = 5, flags[1] = {5};
    crackd_totals totals = {.rows = 5};
    EXPECT(101, crackd_close(&none));
    EXPECT(101, crackd_insert(&none, 1, 1, &part, &number));
    EXPECT(101, crackd_delete(&none, 0, 0, &is, &number, &payload));
    EXPECT(101, crackd_update(&none, 0, 0, 1, 1, &is));
    EXPECT(101, crackd_count(&none, 0, 1, 2, &number));
    EXPECT(101, crackd_sum(&none, 0, 1, 2, &number, &payload));
    EXPECT(101, crackd_select(&none, 0, 1, 2, parts, 1, list, 1, written, 1, payloads, 1, &number));
    EXPECT(101, crackd_layout(&none, 0, &totals, list, 1, written, 1));
    EXPECT(101, crackd_checkpoint(&none, 0, &number));
    EXPECT(101, crackd_accepted(&none, &number));
    EXPECT(101, crackd_insert_many(&none, list, 1, payloads, 1, parts, 1, written, 1, &number));
    EXPECT(101, crackd_delete_many(&none, parts, 1, list, 1, flags, 1, &number));
    EXPECT(101, crackd_update_many(&none, parts, 1, list, 1, list, 1, payloads, 1, flags, 1, &number));
    EXPECT(101, crackd_count_many(&none, 0, list, 1, list, 1, written, 1, &number));
    EXPECT(101, crackd_sum_many(&none, 0, list, 1, list, 1, written, 1, payloads, 1, &other));
    EXPECT(true, part == 5 && number == 5 && other == 5 && payload == 5 && is == 5 && totals.rows == 5);
    EXPECT(true, parts[0] == 5 && list[0] == 5 && written[0] == 5 && payloads[0] == 5 && flags[0] == 5);
}

/* Lists of different lengths return 103, unknown policies 104, and nothing is written. */
static void check_words(crackd_handle *handle) {
    uint32_t parts[2] = {5, 5};
    uint64_t list[2] = {5, 5}, written[2] = {5, 5}, number = 5;
    int64_t payloads[2] = {5, 5}, high = 5;
    uint8_t flags[2] = {5, 5};
    crackd_totals totals = {.rows = 5};
    for (size_t odd = 0; odd < 3; odd++) {
        EXPECT(103, crackd_insert_many(handle, list, 2, payloads, 2 - (odd == 0), parts, 2 - (odd == 1), written,
                                       2 - (odd == 2), &number));
        EXPECT(103, crackd_update_many(handle, parts, 2, list, 2 - (odd == 0), list, 2 - (odd == 1), payloads,
                                       2 - (odd == 2), flags, 2, &number));
        EXPECT(103, crackd_sum_many(handle, 0, list, 2, list, 2 - (odd == 0), written, 2 - (odd == 1), payloads,
                                    2 - (odd == 2), &number));
        EXPECT(103, crackd_select(handle, 0, 1, 2, parts, 2, list, 2 - (odd == 0), written, 2 - (odd == 1), payloads,
                                  2 - (odd == 2), &number));
    }
    for (size_t odd = 0; odd < 2; odd++) {
        EXPECT(103, crackd_delete_many(handle, parts, 2, list, 2 - (odd == 0), flags, 2 - (odd == 1), &number));
        EXPECT(103, crackd_count_many(handle, 0, list, 2, list, 2 - (odd == 0), written, 2 - (odd == 1), &number));
    }
    EXPECT(103, crackd_update_many(handle, parts, 2, list, 2, list, 2, payloads, 2, flags, 1, &number));
    EXPECT(103, crackd_layout(handle, 0, &totals, list, 2, written, 1));
    EXPECT(104, crackd_count(handle, 4, 1, 2, &number));
    EXPECT(104, crackd_sum(handle, 4, 1, 2, &number, &high));
    EXPECT(104, crackd_select(handle, UINT32_MAX, 1, 2, parts, 2, list, 2, written, 2, payloads, 2, &number));
    EXPECT(104, crackd_count_many(handle, 4, list, 2, list, 2, written, 2, &number));
    EXPECT(104, crackd_sum_many(handle, 4, list, 2, list, 2, written, 2, payloads, 2, &number));
    EXPECT(true, number == 5 && high == 5 && totals.rows == 5 && parts[1] == 5 && list[1] == 5 && written[0] == 5 &&
                     payloads[0] == 5 && flags[0] == 5);
}

/* The refusals of openings. */
static void check_openings(void) {
    crackd_handle handle = {0};
    uint64_t many[64], falling[2] = {5, 5}, least[1] = {0};
    for (uint64_t k = 0; k < 64; k++)
        many[k] = k + 1;
    EXPECT(11, crackd_open(&handle, falling, 2, 1, 1, 1));
    EXPECT(11, crackd_open(&handle, least, 1, 1, 1, 1));
    EXPECT(12, crackd_open(&handle, many, 64, 1, 1, 1));
    EXPECT(14, crackd_open(&handle, many, 0, CRACKD_MOST_HISTORY + 1, 1, 1));
    EXPECT(14, crackd_open(&handle, many, 0, UINT64_MAX, 1, 1));
    EXPECT(14, crackd_open(&handle, many, 0, CRACKD_NO_LIMIT, 0, 1));
    EXPECT(14, crackd_open(&handle, many, 0, CRACKD_NO_LIMIT, 1, 0));
    EXPECT(14, crackd_open(&handle, many, 0, 1, CRACKD_MOST_CELLS + 1, 1));
    EXPECT(14, crackd_open(&handle, many, 0, 1, 1, CRACKD_MOST_LIFE + 1));
    EXPECT(false, handle.is_open);
    EXPECT(0, crackd_open(&handle, many, 63, 1, 1, 1));
    EXPECT(102, crackd_open(&handle, many, 0, 1, 1, 1));
    EXPECT(0, crackd_close(&handle));
}

/* A history has a limit only if one is given: then a checkpoint is made once it has as many entries. */
static void check_histories(void) {
    enum { ROWS = 1000, CALLS = 1001 };
    static uint64_t keys[ROWS], serials[ROWS];
    static int64_t payloads[ROWS];
    static uint32_t parts[ROWS];
    const uint64_t limits[2] = {CRACKD_NO_LIMIT, CRACKD_MOST_HISTORY};
    const uint64_t since[2] = {ROWS * CALLS, ROWS * CALLS - CRACKD_MOST_HISTORY};
    for (int k = 0; k < 2; k++) {
        crackd_handle handle = {0};
        uint64_t number = 9, refused = 0;
        EXPECT(0, crackd_open(&handle, SPLITS, 0, limits[k], CRACKD_MOST_CELLS, CRACKD_MOST_LIFE));
        for (int call = 0; call < CALLS; call++)
            if (crackd_insert_many(&handle, keys, ROWS, payloads, ROWS, parts, ROWS, serials, ROWS, &number))
                refused++;
        EXPECT(0, refused);
        EXPECT(0, crackd_checkpoint(&handle, 0, &number));
        EXPECT(true, number == since[k]);
        EXPECT(0, crackd_close(&handle));
    }
}

/* The refusals of changes, and that calls for many stop there. */
static void check_refusals(void) {
    crackd_handle handle = {0};
    uint32_t part = 9, parts[3] = {0, 7, 0};
    uint64_t serial = 9, number = 9, keys[3] = {1, 2, 3}, serials[3] = {0, 0, 0}, firsts[2] = {0, 3}, lasts[2] = {9, 1},
             counts[2] = {9, 9};
    int64_t payloads[3] = {1, 2, 3};
    uint8_t is = 9, flags[3] = {9, 9, 9};
    EXPECT(0, crackd_open(&handle, SPLITS, 2, 4, 2, 7));
    check_words(&handle);
    EXPECT(0, crackd_insert(&handle, 1, 10, &part, &serial));
    EXPECT(4, crackd_update(&handle, part, serial, 50, 1, &is));
    EXPECT(5, crackd_update(&handle, 3, 0, 50, 1, &is));
    EXPECT(5, crackd_delete(&handle, 3, 0, &is, &number, payloads));
    EXPECT(5, crackd_checkpoint(&handle, 3, &number));
    EXPECT(2, crackd_count(&handle, 0, 5, 3, &number));
    EXPECT(true, is == 9 && number == 9 && payloads[0] == 1);
    EXPECT(5, crackd_delete_many(&handle, parts, 3, serials, 3, flags, 3, &number));
    EXPECT(true, number == 1 && flags[0] == 1 && flags[1] == 9);
    EXPECT(2, crackd_count_many(&handle, 2, firsts, 2, lasts, 2, counts, 2, &number));
    EXPECT(true, number == 1 && counts[0] == 0 && counts[1] == 9);
    EXPECT(9, crackd_insert_many(&handle, keys, 3, payloads, 3, parts, 3, serials, 3, &number));
    EXPECT(2, number);
    EXPECT(0, crackd_accepted(&handle, &number));
    EXPECT(1 + 1 + 1 + 2, number);
    uint32_t status = 0;
    for (int k = 0; k < 8 && status == 0; k++)
        status = crackd_count(&handle, 0, 1, 2, &number);
    EXPECT(10, status);
    EXPECT(0, crackd_close(&handle));
}

/* 9 comes only if there are as many rows as cells: cells of rows that were deleted or changed are freed before. */
static void check_cells(void) {
    crackd_handle handle = {0};
    uint32_t part = 9, parts[3] = {9, 9, 9};
    uint64_t serial = 9, number = 9, keys[3] = {1, 2, 3}, serials[3] = {9, 9, 9};
    int64_t payloads[3] = {1, 2, 3};
    uint8_t is = 9, flags[3] = {9, 9, 9};
    EXPECT(0, crackd_open(&handle, SPLITS, 0, 100, 3, 1000));
    for (int round = 0; round < 3; round++) {
        EXPECT(0, crackd_insert_many(&handle, keys, 3, payloads, 3, parts, 3, serials, 3, &number));
        EXPECT(0, crackd_count(&handle, CRACKD_COMPLETE, 0, 9, &number));
        EXPECT(3, number);
        EXPECT(9, crackd_insert(&handle, 4, 4, &part, &serial));
        EXPECT(0, crackd_delete(&handle, parts[0], serials[0], &is, &number, payloads));
        for (uint64_t key = 5; key < 9; key++) {
            EXPECT(0, crackd_update(&handle, parts[1], serials[1], key, 1, &is));
            EXPECT(0, crackd_count(&handle, CRACKD_RIPPLE, key, key, &number));
            EXPECT(1, number);
        }
        EXPECT(0, crackd_delete_many(&handle, parts, 3, serials, 3, flags, 3, &number));
        EXPECT(true, flags[0] == 0 && flags[1] == 1 && flags[2] == 1);
    }
    EXPECT(0, crackd_close(&handle));
}

int main(void) {
    EXPECT(0, strncmp(crackd_version(), "crackd ", 7));
    check_closed();
    check_openings();
    check_histories();
    check_refusals();
    check_cells();
    run_steps(0);
    printf("%" PRIu64 " refused\n", refuse_each());
    return 0;
}
