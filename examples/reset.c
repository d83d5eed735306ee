/* What a reset in the middle of a call leaves: each call runs in a child, an instruction at a time, and after each
 * instruction that changed a byte of the store its memories are tested. A table for docs/MANUAL.md; Linux on x86-64. */
#define _GNU_SOURCE
#include "hourbracken.h"

#include <signal.h>
#include <stdio.h>
#include <stdlib.h>
#include <string.h>
#include <sys/mman.h>
#include <sys/ptrace.h>
#include <sys/wait.h>
#include <unistd.h>

enum { KEY_ROOMS = 8, VERSION_ROOMS = 64, DESKS = 4 };
#define HALL_LEN HB_HALL_LEN(KEY_ROOMS, VERSION_ROOMS)
#define DESK_LEN HB_DESK_LEN(DESKS)
#define STORE_LEN (HALL_LEN + DESK_LEN)

/* Hall memory, then desk memory; a child's calls are seen here. */
static uint8_t *store;
#define BOTH store, HALL_LEN, store + HALL_LEN, DESK_LEN

static uint8_t dump[HB_DUMP_LEN(KEY_ROOMS, VERSION_ROOMS)];
static size_t dump_len;
static uint64_t start;

static uint64_t put(const char *key, const char *value)
{
    return hb_put(BOTH, start, (const uint8_t *)key, strlen(key), (const uint8_t *)value, strlen(value));
}

static uint64_t call_begin(void) { return hb_begin(BOTH).refusal; }
static uint64_t call_put_again(void) { return put("A1", "a longer name of a feed"); }
static uint64_t call_put(void) { return put("A0", "direct"); }
static uint64_t call_commit(void) { return hb_commit(BOTH, start, NULL, 0).refusal; }
static uint64_t call_abort(void) { return hb_abort(BOTH, start); }
static uint64_t call_sweep(void) { return hb_sweep(BOTH, UINT64_MAX).refusal; }
static uint64_t call_thin(void) { return hb_thin(BOTH, UINT64_MAX).refusal; }
static uint64_t call_make(void) { return hb_make(BOTH, KEY_ROOMS / 2, VERSION_ROOMS / 4, DESKS / 2); }
static uint64_t call_load(void) { return hb_load(dump, dump_len, BOTH, KEY_ROOMS, VERSION_ROOMS, DESKS).refusal; }

static void need(int holds, const char *what)
{
    if (holds)
        return;
    fprintf(stderr, "reset: %s\n", what);
    exit(1);
}

/* One step of the child; false once it has ended. */
static int step(pid_t child)
{
    int status;
    need(ptrace(PTRACE_SINGLESTEP, child, 0, 0) == 0, "a child cannot be halted here");
    need(waitpid(child, &status, 0) == child, "a child is lost");
    return !WIFEXITED(status);
}

static pid_t halted(uint64_t (*call)(void))
{
    pid_t child = fork();
    need(child >= 0, "no child can be had");
    if (child == 0) {
        ptrace(PTRACE_TRACEME, 0, 0, 0);
        raise(SIGSTOP);
        _exit((int)call());
    }
    need(waitpid(child, NULL, 0) == child, "a child is lost");
    return child;
}

static void measure(const char *name, uint64_t (*call)(void))
{
    static uint8_t before[STORE_LEN], after[STORE_LEN], seen[STORE_LEN], out[sizeof dump];
    unsigned states = 0, both = 0, hall = 0, neither = 0;

    memcpy(before, store, STORE_LEN);
    need(call() == HB_OK, name);
    memcpy(after, store, STORE_LEN);
    memcpy(store, before, STORE_LEN);
    memcpy(seen, before, STORE_LEN);
    for (pid_t child = halted(call); step(child);) {
        if (memcmp(seen, store, STORE_LEN) == 0)
            continue;
        memcpy(seen, store, STORE_LEN);
        if (memcmp(seen, before, STORE_LEN) == 0 || memcmp(seen, after, STORE_LEN) == 0)
            continue;
        states++;
        both += hb_counts(seen, HALL_LEN, seen + HALL_LEN, DESK_LEN).refusal == HB_OK;
        if (hb_dump(seen, HALL_LEN, out, sizeof out).refusal != HB_OK)
            continue;
        hall++;
        neither += memcmp(seen, before, HALL_LEN) != 0 && memcmp(seen, after, HALL_LEN) != 0;
    }
    need(memcmp(store, after, STORE_LEN) == 0, "a halted call came to another end");
    printf("| %s | %u | %u | %u | %u |\n", name, states, both, hall, neither);
}

static void begin(void)
{
    hb_begun a = hb_begin(BOTH);
    need(a.refusal == HB_OK, "no transaction");
    start = a.start;
}

/* Three keys with six, six and three versions. */
static void prepare(void)
{
    need(hb_make(BOTH, KEY_ROOMS, VERSION_ROOMS, DESKS) == HB_OK, "no store");
    for (int i = 0; i < 6; i++) {
        begin();
        need(put("A1", "loop") == HB_OK && put("A3", "direct") == HB_OK, "no write");
        need(i % 2 == 0 || put("B7", "loop") == HB_OK, "no write");
        need(call_commit() == HB_OK, "no commit");
    }
    hb_dumped d = hb_dump(store, HALL_LEN, dump, sizeof dump);
    need(d.refusal == HB_OK, "no dump");
    dump_len = d.len;
}

int main(void)
{
    static uint8_t open[STORE_LEN];
    store = mmap(NULL, STORE_LEN, PROT_READ | PROT_WRITE, MAP_SHARED | MAP_ANONYMOUS, -1, 0);
    need(store != MAP_FAILED, "no memory to share");
    prepare();
    puts("| call | states in the middle | both memories sound | hall memory sound | neither as before nor as after |");
    puts("|---|---:|---:|---:|---:|");
    measure("begin", call_begin);
    begin();
    need(put("A1", "feed") == HB_OK && put("A2", "loop") == HB_OK && put("C1", "loop") == HB_OK, "no write");
    measure("put of a key that was written before", call_put_again);
    measure("put of another key", call_put);
    memcpy(open, store, STORE_LEN);
    measure("commit of 4 writes, 3 of them of new keys", call_commit);
    memcpy(store, open, STORE_LEN);
    measure("thin", call_thin);
    memcpy(store, open, STORE_LEN);
    measure("abort", call_abort);
    measure("sweep", call_sweep);
    measure("make, over a store", call_make);
    measure("load, over a store", call_load);
    return 0;
}
