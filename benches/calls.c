// Each public call measured alone, every time from the same memories. ./bench builds it and runs it twice:
//   calls count    makes each call once, between marks that the emulator's plugin counts by
//   calls time     times each call and prints a line of it: store, call, open desks, 1 if it tests soundness or else 0,
//                  best and median of its runs in nanoseconds
// A second word, quick, leaves out all stores but one. RUNS is how often a call is timed. With SIDES 2 another library,
// linked under names that begin with other_, takes turns with the first.
#define _GNU_SOURCE
#include <inttypes.h>
#include <stdbool.h>
#include <stdio.h>
#include <stdlib.h>
#include <string.h>
#include <time.h>
#include <unistd.h>

#include "hourbracken.h"
#include "marks.h"
#include "stores.h"

// ---- spans: what is measured

static bool counting, marking; // calls that prepare a store go without marks
static uint64_t opened, span;  // nanoseconds

static uint64_t now(void)
{
    struct timespec t;
    clock_gettime(CLOCK_MONOTONIC, &t);
    return t.tv_sec * UINT64_C(1000000000) + t.tv_nsec;
}

static __attribute__((noinline)) void open_span(void)
{
    if (marking)
        syscall(MARK_OPEN);
    else
        opened = now();
}

static __attribute__((noinline)) void close_span(void)
{
    if (marking)
        syscall(MARK_CLOSE);
    else
        span = now() - opened;
}

#define MEASURED(type, answer, call) \
    open_span(); \
    type answer = s->lib->call; \
    close_span()

// ---- calls: each says whether it was answered as it should be

// The test and next to nothing else: a key without bytes is refused right after memories that are not sound.
static bool test_both(struct store *s)
{
    MEASURED(hb_found, a, read(HALL(s), DESK(s), 0, NULL, 0));
    return a.refusal == HB_BAD_KEY;
}

static bool test_hall(struct store *s)
{
    MEASURED(hb_found, a, newest(HALL(s), NULL, 0));
    return a.refusal == HB_BAD_KEY;
}

static bool begin(struct store *s)
{
    MEASURED(hb_begun, a, begin(HALL(s), DESK(s)));
    s->live.start = ++s->live.counter;
    return a.refusal == HB_OK && a.start == s->live.start && a.desk == desks;
}

static bool is_newest(struct store *s, hb_found a, unsigned key)
{
    return a.refusal == HB_OK && a.kind == HB_HALL_VALUE && a.len == VALUE_LEN &&
           memcmp(s->live.hall + a.at, value_of(key, room->chain - 1), VALUE_LEN) == 0;
}

static bool read_one(struct store *s)
{
    const uint8_t *key = key_of(spread(0, 1));
    MEASURED(hb_found, a, read(HALL(s), DESK(s), s->live.start, key, KEY_LEN));
    return is_newest(s, a, spread(0, 1));
}

static bool newest_one(struct store *s)
{
    const uint8_t *key = key_of(spread(0, 1));
    MEASURED(hb_found, a, newest(HALL(s), key, KEY_LEN));
    return is_newest(s, a, spread(0, 1));
}

static bool put(struct store *s, unsigned which)
{
    const uint8_t *key = key_of(which), *value = value_of(which, room->chain);
    MEASURED(uint64_t, refusal, put(HALL(s), DESK(s), s->live.start, key, KEY_LEN, value, VALUE_LEN));
    return refusal == HB_OK;
}

static bool put_one(struct store *s) { return put(s, spread(0, 1)); }

static uint8_t list[HB_CLASH_LIST_LEN];

static bool commit(struct store *s)
{
    MEASURED(hb_committed, a, commit(HALL(s), DESK(s), s->live.start, list, sizeof list));
    return a.refusal == HB_OK && a.number == s->live.counter + 1;
}

static bool commit_journal(struct store *s)
{
    MEASURED(hb_recorded, a, commit_journal(HALL(s), DESK(s), s->live.start, list, sizeof list, JOURNAL(s)));
    s->journal_len = a.len;
    return a.refusal == HB_OK && a.number == s->live.counter + 1 && a.len > 18;
}

// A journal of one record, that of a commit to the same store.
static bool replay(struct store *s)
{
    MEASURED(hb_replayed, a, replay(HALL(s), DESK(s), s->journal, s->journal_len));
    return a.refusal == HB_OK && a.offset == s->journal_len;
}

// ---- batches, built beforehand

enum { READS = 1000 };
static uint8_t records[READS * HB_BATCH_RECORD_LEN], answers[READS * HB_ANSWER_LEN];

static bool batch(struct store *s, const hb_builder *b)
{
    MEASURED(hb_batched, a, batch(HALL(s), DESK(s), b->bytes, b->len, answers, b->answers_len));
    if (b->full || a.refusal != HB_OK || a.len != b->answers_len)
        return false;
    for (size_t i = 0; i < b->records; i++)
        if (hb_head_at(answers, i).refusal != HB_OK)
            return false;
    return true;
}

// A begin, four puts and their commit.
static bool batch_commit(struct store *s)
{
    hb_builder b = {records, sizeof records, 0, 0, 0, 0};
    hb_who own = hb_add_begin(&b);
    for (unsigned i = 0; i < 4; i++) {
        unsigned key = spread(i, 4);
        hb_add_put(&b, own, key_of(key), KEY_LEN, value_of(key, room->chain), VALUE_LEN);
    }
    hb_add_commit(&b, own);
    return batch(s, &b);
}

static bool batch_reads(struct store *s)
{
    hb_builder b = {records, sizeof records, 0, 0, 0, 0};
    for (unsigned i = 0; i < READS; i++)
        hb_add_read(&b, hb_started(s->live.start), key_of(spread(i, READS)), KEY_LEN);
    return batch(s, &b);
}

static bool abort_own(struct store *s)
{
    MEASURED(uint64_t, refusal, abort(HALL(s), DESK(s), s->live.start));
    return refusal == HB_OK;
}

static bool sweep(struct store *s)
{
    MEASURED(hb_swept, a, sweep(HALL(s), DESK(s), UINT64_MAX));
    return a.refusal == HB_OK && a.dropped == room->keys * (room->chain - 1);
}

static bool thin(struct store *s)
{
    MEASURED(hb_thinned, a, thin(HALL(s), DESK(s), UINT64_MAX));
    return a.refusal == HB_OK && a.dropped == room->keys * (room->chain - 1);
}

static bool dump_hall(struct store *s)
{
    MEASURED(hb_dumped, a, dump(HALL(s), out, sizeof out));
    return a.refusal == HB_OK && a.len == dump_len && memcmp(out, dump, dump_len) == 0;
}

static bool load(struct store *s)
{
    MEASURED(hb_loaded, a, load(dump, dump_len, HALL(s), DESK(s), room->keys, room->versions, HB_MAX_DESKS));
    s->live.counter = last_number();
    return a.refusal == HB_OK;
}

// ---- rows of the tables

static const struct row {
    const char *name;
    bool (*call)(struct store *), (*test)(struct store *);
    int writes; // of the measured transaction, or of the record; -1 if there is none
    bool old;   // one desk is older than all versions
} rows[] = {
    {"soundness test, both memories", test_both, test_both, -1, false},
    {"begin", begin, test_both, -1, false},
    {"read", read_one, test_both, 0, false},
    {"put", put_one, test_both, 0, false},
    {"commit of 1 write", commit, test_both, 1, false},
    {"commit of 1 write, journal", commit_journal, test_both, 1, false},
    {"commit of 4 writes", commit, test_both, 4, false},
    {"commit of 4 writes, journal", commit_journal, test_both, 4, false},
    {"commit of 16 writes", commit, test_both, 16, false},
    {"commit of 16 writes, journal", commit_journal, test_both, 16, false},
    {"replay, a record of 1 write", replay, test_both, 1, false},
    {"replay, a record of 4 writes", replay, test_both, 4, false},
    {"replay, a record of 16 writes", replay, test_both, 16, false},
    {"batch: begin, 4 puts, commit", batch_commit, test_both, -1, false},
    {"batch of 1,000 reads", batch_reads, test_both, 0, false},
    {"abort of 4 writes", abort_own, test_both, 4, false},
    {"sweep", sweep, test_both, -1, false},
    {"thin", thin, test_both, -1, false},
    {"soundness test, hall memory", test_hall, test_hall, -1, false},
    {"newest", newest_one, test_hall, -1, false},
    {"dump", dump_hall, test_hall, -1, false},
    {"load", load, NULL, -1, false},
    {"soundness test, one old desk", test_both, test_both, -1, true},
    {"thin, one old desk", thin, test_both, -1, true},
};
enum { ROWS = sizeof rows / sizeof *rows };

static struct item {
    const struct room *room;
    unsigned desks;
    const struct row *row;
} items[ROOMS * 5 * ROWS];
static unsigned item_count;

// Writes are of different keys, and other desks matter to calls that are lent them; a replay is refused beside any.
static void list_items(bool quick)
{
    static const struct {
        unsigned desks;
        bool old;
    } sets[] = {{0, false}, {16, false}, {63, false}, {16, true}, {63, true}};
    for (unsigned r = quick ? 1 : 0; r < (quick ? 2 : ROOMS); r++)
        for (unsigned d = 0; d < (quick ? 1 : 5); d++)
            for (unsigned i = 0; i < ROWS; i++)
                if (rows[i].writes <= (int)rooms[r].keys && rows[i].old == sets[d].old &&
                    (d == 0 || (rows[i].test == test_both && rows[i].call != replay)))
                    items[item_count++] = (struct item){&rooms[r], sets[d].desks, &rows[i]};
}

static void must(bool done, const char *call)
{
    if (!done) {
        fprintf(stderr, "\nbench: %s: %s, %u open desks: not answered as it should be\n", room->title, call, desks);
        exit(1);
    }
}

// Loads the store beside the desks of another, which had no version yet when one transaction began in it.
static bool load_behind(struct store *s)
{
    uint8_t head[HEAD_LEN];
    put_head(head, 1, 0);
    hb_loaded a = s->lib->load(head, sizeof head, HALL(s), DESK(s), room->keys, room->versions, HB_MAX_DESKS);
    s->live.counter = 0;
    if (a.refusal != HB_OK || !begin(s))
        return false;
    memcpy(s->ready.desk, s->live.desk, DESK_LEN);
    bool loaded = load(s);
    memcpy(s->live.desk, s->ready.desk, DESK_LEN);
    return loaded;
}

// Loads the item's store, unless it stands, and opens as many desks as it has.
static void reach(const struct item *item)
{
    if (room != item->room || old != item->row->old) {
        room = item->room, old = item->row->old, desks = 0;
        hall_len = HB_HALL_LEN(room->keys, room->versions);
        compose_dump();
        for (unsigned i = 0; i < SIDES; i++) {
            must((old ? load_behind : load)(&stores[i]), "load");
            copy(&stores[i].base, &stores[i].live);
        }
        desks = old;
    }
    for (; desks < item->desks; desks++)
        for (unsigned i = 0; i < SIDES; i++) {
            copy(&stores[i].live, &stores[i].base);
            must(begin(&stores[i]), "begin");
            copy(&stores[i].base, &stores[i].live);
        }
}

static void prepare(struct store *s, const struct row *row)
{
    bool saves = row->call == commit || row->call == commit_journal || row->call == replay || row->call == batch_commit;
    copy(&s->live, &s->base);
    if (saves && room->keys * room->chain == room->versions) { // a full store: sixteen versions make room
        hb_swept a = s->lib->sweep(HALL(s), DESK(s), number_of(0, 1));
        must(a.refusal == HB_OK && a.dropped == 16, "sweep");
    }
    copy(&s->ready, &s->live);
    if (row->writes >= 0)
        must(begin(s), "begin");
    for (int i = 0; i < row->writes; i++)
        must(put(s, spread(i, row->writes)), "put");
    if (row->call == replay) // from before the begin on, with the record of the commit
        must(commit_journal(s), "commit with a journal");
    else
        copy(&s->ready, &s->live);
}

static uint64_t once(struct store *s, bool (*call)(struct store *), const char *name)
{
    copy(&s->live, &s->ready);
    marking = counting;
    must(call(s), name);
    marking = false;
    return span;
}

static void count_calls(const struct row *row)
{
    for (unsigned i = 0; i < SIDES; i++) {
        once(&stores[i], row->call, row->name);
        if (row->test)
            once(&stores[i], row->test, "soundness test");
    }
}

static int by_size(const void *a, const void *b)
{
    uint64_t x = *(const uint64_t *)a, y = *(const uint64_t *)b;
    return (x > y) - (x < y);
}

static void time_calls(const struct row *row)
{
    static uint64_t times[SIDES][RUNS];
    for (unsigned run = 0; run < RUNS; run++)
        for (unsigned i = 0; i < SIDES; i++)
            times[i][run] = once(&stores[i], row->call, row->name);
    printf("%s\t%s\t%u\t%d", room->title, row->name, desks, row->test != NULL);
    for (unsigned i = 0; i < SIDES; i++) {
        qsort(times[i], RUNS, sizeof **times, by_size);
        printf("\t%" PRIu64 "\t%" PRIu64, times[i][0], times[i][RUNS / 2]);
    }
    puts("");
}

static void progress(unsigned i)
{
    bool screen = isatty(STDERR_FILENO), last = i + 1 == item_count;
    fprintf(stderr, "%sbench: %s %u of %u: %s, rooms %u/%u, %u open desks%s", screen ? "\r" : "",
            counting ? "counting" : "timing", i + 1, item_count, items[i].row->name, items[i].room->keys,
            items[i].room->versions, items[i].desks, !screen ? "\n" : last ? "\033[K\n" : "\033[K");
}

int main(int argc, char **argv)
{
    if (argc < 2)
        return 2;
    counting = strcmp(argv[1], "count") == 0;
    list_items(argc > 2 && strcmp(argv[2], "quick") == 0);
    for (unsigned i = 0; i < SIDES; i++)
        stores[i].lib = &libraries[i];
    marking = counting; // what the marks count with nothing between them comes first
    open_span();
    close_span();
    marking = false;
    for (unsigned i = 0; i < item_count; i++) {
        progress(i);
        reach(&items[i]);
        for (unsigned side = 0; side < SIDES; side++)
            prepare(&stores[side], items[i].row);
        (counting ? count_calls : time_calls)(items[i].row);
    }
    return 0;
}
