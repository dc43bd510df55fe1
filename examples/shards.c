/* A table in four shards: ranges of keys, each with a handle and a mutex, which threads load side by side. */
#include "crackd.h"
#include <inttypes.h>
#include <pthread.h>
#include <stdio.h>

enum { SHARDS = 4, ROWS = 100000, WIDTH = 250000 };

static struct shard {
    crackd_handle handle;
    pthread_mutex_t lock;
    uint64_t keys[ROWS], serials[ROWS], rows, done;
    int64_t payloads[ROWS];
    uint32_t parts[ROWS], status;
} table[SHARDS];

static void *load(void *given) {
    struct shard *it = given;
    const uint64_t n = it->rows;
    pthread_mutex_lock(&it->lock);
    it->status = crackd_open(&it->handle, it->keys, 0, CRACKD_NO_LIMIT, CRACKD_MOST_CELLS, CRACKD_MOST_LIFE);
    if (!it->status)
        it->status = crackd_insert_many(&it->handle, it->keys, n, it->payloads, n,
                                        it->parts, n, it->serials, n, &it->done);
    pthread_mutex_unlock(&it->lock);
    return NULL;
}

/* Adds up the counts of the shards that have keys of the range. */
static uint32_t count(uint64_t first, uint64_t last, uint64_t *total) {
    uint32_t status = 0;
    *total = 0;
    for (uint64_t s = first / WIDTH; !status && s <= last / WIDTH; s++) {
        uint64_t each = 0;
        pthread_mutex_lock(&table[s].lock);
        status = crackd_count(&table[s].handle, CRACKD_AUTO, first, last, &each);
        pthread_mutex_unlock(&table[s].lock);
        *total += each;
    }
    return status;
}

int main(void) {
    pthread_t threads[SHARDS];
    for (uint64_t k = 0; k < ROWS; k++) {
        uint64_t key = k * 7919 % (SHARDS * WIDTH);
        struct shard *it = &table[key / WIDTH];
        it->payloads[it->rows] = (int64_t)k;
        it->keys[it->rows++] = key;
    }
    for (int s = 0; s < SHARDS; s++) {
        pthread_mutex_init(&table[s].lock, NULL);
        if (pthread_create(&threads[s], NULL, load, &table[s]))
            return 1;
    }
    for (int s = 0; s < SHARDS; s++)
        pthread_join(threads[s], NULL);
    uint64_t total;
    if (!count(200000, 799999, &total))
        printf("%" PRIu64 " rows from 200000 to 799999\n", total);
}
