/* How much stack the calls take: plays logs of replay records on a thread whose stack is painted
 * before, and fails where more than 256 KB of it are used. usage: stack LOG... */
#define _GNU_SOURCE
#include "voter_slots.h"

#include <pthread.h>
#include <stdio.h>
#include <stdlib.h>
#include <string.h>
#include <sys/mman.h>

enum { STACK_BYTES = 4 << 20, MOST_BYTES = 256 << 10, PAINT = 0xA5 };

/* Nothing of the logs lies on the stack. */
static uint8_t table[VOTER_SLOTS_TABLE_BYTES];
static size_t table_len;
static voter_slots_table kept;
static uint8_t next[VOTER_SLOTS_TABLE_BYTES];
static uint8_t record[4 + VOTER_SLOTS_BODY_BYTES];
static unsigned long calls;

static unsigned number16(const uint8_t *bytes) { return (unsigned)bytes[0] << 8 | bytes[1]; }

static void keep(voter_slots_result r) {
    calls++;
    if (r.answer == VOTER_SLOTS_ACCEPTED) {
        memcpy(table, next, (size_t)r.count);
        table_len = (size_t)r.count;
    }
}

/* The same on a table that is kept in memory. */
static void play_kept(unsigned mark, const uint8_t *body, size_t len) {
    if (mark == 0x5442) {
        voter_slots_table_read(&kept, body, len);
    } else if (mark == 0x4F42) {
        voter_slots_table_observe(&kept, body, len);
    } else {
        voter_slots_table_apply(&kept, mark, body, len);
    }
    voter_slots_table_write(&kept, next, sizeof next);
    voter_slots_table_retired(&kept, 2);
    calls++;
}

static void play(unsigned mark, const uint8_t *body, size_t len) {
    if (mark == 0x5442) {
        if (table_len == 0) {
            keep(voter_slots_write(body, len, next, sizeof next));
        }
    } else if (mark == 0x4F42) {
        keep(voter_slots_observe(table, table_len, body, len, next, sizeof next));
    } else {
        keep(voter_slots_apply(table, table_len, mark, body, len, next, sizeof next));
    }
    voter_slots_read(table, table_len);
    voter_slots_retired(table, table_len, 2);
    play_kept(mark, body, len);
}

static void *play_logs(void *paths) {
    for (char **path = paths; *path != NULL; path++) {
        FILE *log = fopen(*path, "rb");
        if (log == NULL) {
            perror(*path);
            exit(2);
        }
        table_len = 0;
        memset(&kept, 0, sizeof kept);
        while (fread(record, 1, 4, log) == 4) {
            size_t len = number16(record + 2);
            if (fread(record + 4, 1, len, log) != len) {
                break;
            }
            play(number16(record), record + 4, len);
        }
        fclose(log);
    }
    return NULL;
}

int main(int argc, char **argv) {
    pthread_attr_t attributes;
    pthread_t thread;
    uint8_t *stack = mmap(NULL, STACK_BYTES, PROT_READ | PROT_WRITE, MAP_PRIVATE | MAP_ANONYMOUS, -1, 0);
    if (argc < 2 || stack == MAP_FAILED) {
        return 2;
    }
    memset(stack, PAINT, STACK_BYTES);
    if (pthread_attr_init(&attributes) != 0 ||
        pthread_attr_setstack(&attributes, stack, STACK_BYTES) != 0 ||
        pthread_create(&thread, &attributes, play_logs, argv + 1) != 0 ||
        pthread_join(thread, NULL) != 0) {
        return 2;
    }
    size_t clean = 0;
    while (clean < STACK_BYTES && stack[clean] == PAINT) {
        clean++;
    }
    size_t used = STACK_BYTES - clean;
    printf("%lu calls, at most %zu KB of stack\n", calls, (used + 1023) / 1024);
    return used <= MOST_BYTES ? 0 : 1;
}
