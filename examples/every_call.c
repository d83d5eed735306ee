/* Every call of the library, and each refusal once. It says nothing and ends with 0 if all is answered as it should be;
 * else it names the line. */
#include "hourbracken.h"

#include <stdio.h>
#include <string.h>

enum { KEY_ROOMS = 17, VERSION_ROOMS = 18, DESKS = 3, UNTOUCHED = 0xa5 };

static uint8_t hall[HB_HALL_LEN(KEY_ROOMS, VERSION_ROOMS)];
static uint8_t desk[HB_DESK_LEN(DESKS)];
static uint8_t out[HB_DUMP_LEN(KEY_ROOMS, VERSION_ROOMS)];
static uint8_t list[HB_CLASH_LIST_LEN];
static uint8_t journal[2 * HB_RECORD_LEN];
static int wrong;

#define HALL hall, sizeof hall
#define DESK desk, sizeof desk
#define SIZES KEY_ROOMS, VERSION_ROOMS, DESKS
#define LIST list, sizeof list
#define NO_LIST NULL, 0
#define TEXT(letters) (const uint8_t *)(letters), strlen(letters)
#define IS(what) ((what) ? (void)0 : tell(__LINE__, #what))

static void tell(int line, const char *what)
{
    wrong++;
    printf("line %d is not so: %s\n", line, what);
}

static void make(void)
{
    IS(hb_make(HALL, DESK, 0, VERSION_ROOMS, DESKS) == HB_BAD_SIZES);
    IS(hb_make(HALL, DESK, KEY_ROOMS, 0, DESKS) == HB_BAD_SIZES);
    IS(hb_make(HALL, DESK, KEY_ROOMS, VERSION_ROOMS, 0) == HB_BAD_SIZES);
    IS(hb_make(hall, sizeof hall - 1, DESK, SIZES) == HB_BAD_SIZES);
    IS(hb_make(HALL, desk, sizeof desk - 1, SIZES) == HB_BAD_SIZES);
    IS(hb_begin(HALL, DESK).refusal == HB_UNSOUND);
    IS(hb_make(HALL, DESK, SIZES) == HB_OK);
}

static void write_and_read(void)
{
    hb_begun a = hb_begin(HALL, DESK);
    IS(a.refusal == HB_OK && a.start == 1 && a.desk == 0);
    IS(hb_put(HALL, DESK, 1, TEXT(""), TEXT("loop")) == HB_BAD_KEY);
    IS(hb_put(HALL, DESK, 1, TEXT("A 1"), TEXT("loop")) == HB_BAD_KEY);
    IS(hb_delete(HALL, DESK, 1, TEXT("A1\x7f")) == HB_BAD_KEY);
    IS(hb_newest(HALL, (const uint8_t *)"A1", 3).refusal == HB_BAD_KEY);
    IS(hb_put(HALL, DESK, 1, TEXT("A1"), out, HB_MAX_VALUE + 1) == HB_LONG_VALUE);
    IS(hb_put(HALL, DESK, 1, TEXT("A1"), out, HB_MAX_VALUE) == HB_OK);
    IS(hb_put(HALL, DESK, 2, TEXT("A1"), TEXT("loop")) == HB_NOT_OPEN);
    IS(hb_put(HALL, DESK, 1, TEXT("A1"), TEXT("loop")) == HB_OK);
    IS(hb_put(HALL, DESK, 1, TEXT("A2"), TEXT("")) == HB_OK);
    IS(hb_delete(HALL, DESK, 1, TEXT("A3")) == HB_OK);

    hb_found f = hb_read(HALL, DESK, 1, TEXT("A1"));
    IS(f.refusal == HB_OK && f.kind == HB_OWN_VALUE && f.len == 4);
    IS(memcmp(hb_found_bytes(f, hall, desk), "loop", 4) == 0);
    f = hb_read(HALL, DESK, 1, TEXT("A2"));
    IS(f.kind == HB_OWN_VALUE && f.len == 0);
    f = hb_read(HALL, DESK, 1, TEXT("A3"));
    IS(f.refusal == HB_OK && f.kind == HB_NOTHING_THERE);
    IS(hb_newest(HALL, TEXT("A1")).kind == HB_NOTHING_THERE);
    IS(hb_as_of(HALL, 1, TEXT("A1")).kind == HB_NOTHING_THERE);
}

/* Whether the i-th record of the list says so. */
static int names(size_t i, const char *key, uint64_t newest)
{
    hb_clash c = hb_clash_at(list, i);
    return c.newest == newest && c.key_len == strlen(key) && memcmp(c.key, key, c.key_len) == 0;
}

/* Whether the list is as it was, after so many records. */
static int is_spared(size_t records)
{
    for (size_t i = records * HB_CLASH_LEN; i < sizeof list; i++)
        if (list[i] != UNTOUCHED)
            return 0;
    return 1;
}

static void commit(void)
{
    memset(list, UNTOUCHED, sizeof list);
    IS(hb_begin(HALL, DESK).start == 2);
    hb_committed c = hb_commit(HALL, DESK, 1, LIST);
    IS(c.refusal == HB_OK && c.number == 3 && c.clashes == 0 && is_spared(0));
    hb_found f = hb_newest(HALL, TEXT("A1"));
    IS(f.kind == HB_HALL_VALUE && f.len == 4 && memcmp(hb_found_bytes(f, hall, desk), "loop", 4) == 0);

    IS(hb_put(HALL, DESK, 2, TEXT("A3"), TEXT("loop")) == HB_OK);
    IS(hb_put(HALL, DESK, 2, TEXT("A2"), TEXT("loop")) == HB_OK);
    c = hb_commit(HALL, DESK, 2, LIST);
    IS(c.refusal == HB_CONFLICT && c.number == 0 && c.clashes == 2);
    IS(names(0, "A2", 3) && names(1, "A3", 3) && is_spared(2));
    IS(hb_abort(HALL, DESK, 2) == HB_NOT_OPEN);

    IS(hb_begin(HALL, DESK).start == 4);
    c = hb_commit(HALL, DESK, 4, NO_LIST);
    IS(c.refusal == HB_OK && c.number == 0 && c.clashes == 0);
}

/* All sixteen writes of a transaction clash; a list takes as many whole records as it has room for. */
static void clash(void)
{
    static const size_t lengths[] = {0, HB_CLASH_LEN - 1, HB_CLASH_LEN, 8 * HB_CLASH_LEN - 1, HB_CLASH_LIST_LEN};
    for (size_t i = 0; i < sizeof lengths / sizeof *lengths; i++) {
        char key[] = "Ba";
        size_t fit = lengths[i] / HB_CLASH_LEN;
        IS(hb_make(HALL, DESK, SIZES) == HB_OK);
        IS(hb_begin(HALL, DESK).start == 1 && hb_begin(HALL, DESK).start == 2);
        for (uint64_t start = 1; start <= 2; start++)
            for (key[1] = 'a'; key[1] < 'a' + HB_MAX_WRITES; key[1]++)
                IS(hb_put(HALL, DESK, start, TEXT(key), TEXT("loop")) == HB_OK);
        IS(hb_commit(HALL, DESK, 1, NO_LIST).number == 3);
        memset(list, UNTOUCHED, sizeof list);
        hb_committed c = hb_commit(HALL, DESK, 2, lengths[i] == 0 ? NULL : list, lengths[i]);
        IS(c.refusal == HB_CONFLICT && c.clashes == HB_MAX_CLASHES && is_spared(fit));
        for (key[1] = 'a'; fit > 0; key[1]++, fit--)
            IS(names((size_t)(key[1] - 'a'), key, 3));
    }
}

/* Three keys are held: sixteen more are two too many for the key rooms, and sixteen writes one too many for the version
 * rooms. */
static void fill(void)
{
    char key[] = "Ba";
    IS(hb_begin(HALL, DESK).start == 5);
    for (; key[1] < 'a' + HB_MAX_WRITES; key[1]++)
        IS(hb_put(HALL, DESK, 5, TEXT(key), TEXT("loop")) == HB_OK);
    IS(hb_put(HALL, DESK, 5, TEXT("C"), TEXT("loop")) == HB_TOO_MANY_WRITES);
    IS(hb_commit(HALL, DESK, 5, NO_LIST).refusal == HB_NO_KEY_ROOM);
    IS(hb_abort(HALL, DESK, 5) == HB_OK);

    IS(hb_begin(HALL, DESK).start == 6);
    for (key[1] = 'a'; key[1] < 'a' + 14; key[1]++)
        IS(hb_put(HALL, DESK, 6, TEXT(key), TEXT("loop")) == HB_OK);
    IS(hb_put(HALL, DESK, 6, TEXT("A1"), TEXT("direct")) == HB_OK);
    IS(hb_put(HALL, DESK, 6, TEXT("A2"), TEXT("direct")) == HB_OK);
    IS(hb_commit(HALL, DESK, 6, NO_LIST).refusal == HB_NO_VERSION_ROOM);
    IS(hb_put(HALL, DESK, 6, TEXT("Ba"), TEXT("direct")) == HB_OK);
    IS(hb_abort(HALL, DESK, 6) == HB_OK);
}

/* Whether A1 had this feed at that number; no letters are nothing there. */
static int had(uint64_t number, const char *feed)
{
    hb_found f = hb_as_of(HALL, number, TEXT("A1"));
    return f.refusal == HB_OK && f.kind == (feed[0] ? HB_HALL_VALUE : HB_NOTHING_THERE) && f.len == strlen(feed) &&
           memcmp(hb_found_bytes(f, hall, desk), feed, f.len) == 0;
}

static void sweep_and_count(void)
{
    IS(hb_begin(HALL, DESK).start == 7);
    IS(hb_put(HALL, DESK, 7, TEXT("A1"), TEXT("direct")) == HB_OK);
    IS(hb_commit(HALL, DESK, 7, NO_LIST).number == 8);
    hb_counted n = hb_counts(HALL, DESK);
    IS(n.refusal == HB_OK && n.keys == 3 && n.versions == 4 && n.desks == 0);
    IS(had(0, "") && had(2, "") && had(3, "loop") && had(7, "loop") && had(8, "direct"));
    IS(hb_as_of(HALL, 9, TEXT("A1")).refusal == HB_OUT_OF_REACH);
    hb_swept s = hb_sweep(HALL, DESK, 4);
    IS(s.refusal == HB_OK && s.cutoff == 4 && s.dropped == 1);
    n = hb_counts(HALL, DESK);
    IS(n.refusal == HB_OK && n.keys == 2 && n.versions == 3);
    IS(hb_as_of(HALL, 3, TEXT("A1")).refusal == HB_OUT_OF_REACH && had(4, "loop"));
    s = hb_sweep(HALL, DESK, UINT64_MAX);
    IS(s.refusal == HB_OK && s.cutoff == 8 && s.dropped == 1);
    IS(hb_as_of(HALL, 7, TEXT("A1")).refusal == HB_OUT_OF_REACH && had(8, "direct"));
    IS(hb_as_of(HALL, 7, TEXT("")).refusal == HB_BAD_KEY);
    IS(hb_as_of(hall, sizeof hall - 1, 7, TEXT("")).refusal == HB_UNSOUND);
}

/* What is dumped and loaded again is the same store, but for its past. */
static void dump_and_load(void)
{
    enum { FIRST_KEY = 8 + 8 + 4 + 4 };
    static uint8_t again[sizeof out];
    hb_dumped d = hb_dump(HALL, out, sizeof out);
    IS(d.refusal == HB_OK && memcmp(out, "DSEMVCC1", 8) == 0);
    IS(hb_dump(HALL, out, d.len - 1).refusal == HB_SHORT_OUTPUT);
    IS(hb_load(out, d.len, HALL, DESK, SIZES).refusal == HB_OK);
    IS(hb_as_of(HALL, 7, TEXT("A1")).refusal == HB_OUT_OF_REACH && had(8, "direct"));
    hb_dumped e = hb_dump(HALL, again, sizeof again);
    IS(e.refusal == HB_OK && e.len == d.len && memcmp(out, again, d.len) == 0);

    hb_loaded l = hb_load(out, d.len - 1, HALL, DESK, SIZES);
    IS(l.refusal == HB_CUT_SHORT && l.offset < d.len);
    l = hb_load(out, d.len, HALL, DESK, 1, VERSION_ROOMS, DESKS);
    IS(l.refusal == HB_TOO_BIG && l.offset == 16);
    out[FIRST_KEY] = ' ';
    l = hb_load(out, d.len, HALL, DESK, SIZES);
    IS(l.refusal == HB_MALFORMED && l.offset == FIRST_KEY);
    out[7] = '2';
    l = hb_load(out, d.len, HALL, DESK, SIZES);
    IS(l.refusal == HB_MALFORMED && l.offset == 0);
}

/* A console is left open with start 9, and A1 is saved three times since. */
static void thin(void)
{
    IS(hb_begin(HALL, DESK).start == 9);
    for (uint64_t start = 10; start <= 14; start += 2) {
        IS(hb_begin(HALL, DESK).start == start);
        IS(hb_put(HALL, DESK, start, TEXT("A1"), TEXT("loop")) == HB_OK);
        IS(hb_commit(HALL, DESK, start, NO_LIST).number == start + 1);
    }
    hb_swept s = hb_sweep(HALL, DESK, UINT64_MAX);
    IS(s.refusal == HB_OK && s.cutoff == 9 && s.dropped == 0 && had(9, "direct") && had(11, "loop"));
    hb_thinned t = hb_thin(HALL, DESK, 12);
    IS(t.refusal == HB_OK && t.dropped == 0);
    IS(hb_as_of(HALL, 11, TEXT("A1")).refusal == HB_OUT_OF_REACH && had(12, "loop"));
    t = hb_thin(HALL, DESK, UINT64_MAX);
    IS(t.refusal == HB_OK && t.dropped == 2);
    hb_counted n = hb_counts(HALL, DESK);
    IS(n.keys == 2 && n.versions == 3 && n.desks == 1);
    hb_found f = hb_read(HALL, DESK, 9, TEXT("A1"));
    IS(f.kind == HB_HALL_VALUE && f.len == 6 && memcmp(hb_found_bytes(f, hall, desk), "direct", 6) == 0);
    IS(hb_as_of(HALL, 14, TEXT("A1")).refusal == HB_OUT_OF_REACH && had(15, "loop"));
    IS(hb_thin(hall, sizeof hall - 1, DESK, 0).refusal == HB_UNSOUND);
    IS(hb_abort(HALL, DESK, 9) == HB_OK);
}

/* The two records of a day, and the second commit's writes: A1 deleted, A2 with no bytes. */
static const uint8_t day[] = {
    0x4c, 1, 26, 0, 0, 0, 2, 0, 0, 0, 0, 0, 0, 0, 1, 0, 0, 0, 2, 0, 0, 0, 'A', '1', 1, 3, 0, 0, 0, 'o', 'n', 'e',
    0x4c, 1, 30, 0, 0, 0, 4, 0, 0, 0, 0, 0, 0, 0, 2, 0, 0, 0, 2, 0, 0, 0, 'A', '1', 0,
    2, 0, 0, 0, 'A', '2', 1, 0, 0, 0, 0};
enum { FIRST = 32, WHOLE = sizeof day };

static hb_recorded recorded(uint64_t start, size_t at, size_t len)
{
    return hb_commit_journal(HALL, DESK, start, LIST, len == 0 ? NULL : journal + at, len);
}

/* A commit with too little room for its record is not done, and can be asked again. */
static void record(void)
{
    memset(journal, UNTOUCHED, sizeof journal);
    IS(hb_make(HALL, DESK, SIZES) == HB_OK);
    IS(recorded(1, 0, sizeof journal).refusal == HB_NOT_OPEN);
    IS(hb_begin(HALL, DESK).start == 1 && hb_put(HALL, DESK, 1, TEXT("A1"), TEXT("one")) == HB_OK);
    hb_recorded r = recorded(1, 0, FIRST - 1);
    IS(r.refusal == HB_SHORT_OUTPUT && r.number == 0 && r.len == 0 && journal[0] == UNTOUCHED);
    r = recorded(1, 0, FIRST);
    IS(r.refusal == HB_OK && r.number == 2 && r.clashes == 0 && r.len == FIRST && journal[FIRST] == UNTOUCHED);
    IS(hb_begin(HALL, DESK).start == 3 && hb_put(HALL, DESK, 3, TEXT("A2"), TEXT("")) == HB_OK);
    IS(hb_delete(HALL, DESK, 3, TEXT("A1")) == HB_OK);
    r = recorded(3, FIRST, HB_RECORD_LEN);
    IS(r.refusal == HB_OK && r.number == 4 && r.len == WHOLE - FIRST && memcmp(journal, day, WHOLE) == 0);
    IS(journal[WHOLE] == UNTOUCHED);
    IS(hb_begin(HALL, DESK).start == 5);
    r = recorded(5, 0, 0);
    IS(r.refusal == HB_OK && r.number == 0 && r.len == 0);

    IS(hb_begin(HALL, DESK).start == 6 && hb_begin(HALL, DESK).start == 7);
    IS(hb_put(HALL, DESK, 6, TEXT("A1"), TEXT("two")) == HB_OK && hb_put(HALL, DESK, 7, TEXT("A1"), TEXT("")) == HB_OK);
    IS(hb_commit(HALL, DESK, 7, NO_LIST).number == 8);
    r = recorded(6, 0, sizeof journal);
    IS(r.refusal == HB_CONFLICT && r.clashes == 1 && names(0, "A1", 8) && r.len == 0);
    IS(memcmp(journal, day, WHOLE) == 0);
}

/* Replays so many bytes of the journal into a new store of these rooms. */
static hb_replayed replayed(size_t len, uint64_t key_rooms, uint64_t version_rooms)
{
    IS(hb_make(HALL, DESK, key_rooms, version_rooms, DESKS) == HB_OK);
    return hb_replay(HALL, DESK, journal, len);
}

/* The longest record of all. */
static void record_longest(void)
{
    uint8_t key[HB_MAX_KEY], value[HB_MAX_VALUE] = {0};
    memset(key, 'A', sizeof key);
    IS(hb_make(HALL, DESK, SIZES) == HB_OK && hb_begin(HALL, DESK).start == 1);
    for (int i = 0; i < HB_MAX_WRITES; i++, key[0]++)
        IS(hb_put(HALL, DESK, 1, key, sizeof key, value, sizeof value) == HB_OK);
    IS(recorded(1, 0, HB_RECORD_LEN - 1).refusal == HB_SHORT_OUTPUT);
    IS(recorded(1, 0, HB_RECORD_LEN).len == HB_RECORD_LEN);
    hb_replayed p = replayed(HB_RECORD_LEN, KEY_ROOMS, VERSION_ROOMS);
    IS(p.refusal == HB_OK && p.offset == HB_RECORD_LEN && hb_counts(HALL, DESK).versions == HB_MAX_WRITES);
}

static void replay(void)
{
    memcpy(journal, day, WHOLE);
    for (size_t len = 0; len <= WHOLE; len++) {
        hb_replayed p = replayed(len, KEY_ROOMS, VERSION_ROOMS);
        IS(p.refusal == HB_OK && p.offset == (len < FIRST ? 0 : len < WHOLE ? FIRST : WHOLE));
        IS(hb_counts(HALL, DESK).versions == (len < FIRST ? 0 : len < WHOLE ? 1 : 3));
    }
    IS(had(1, "") && had(2, "one") && had(4, "") && hb_as_of(HALL, 5, TEXT("A1")).refusal == HB_OUT_OF_REACH);
    hb_replayed p = hb_replay(HALL, DESK, journal, WHOLE); /* its numbers are not above the counter any more */
    IS(p.refusal == HB_MALFORMED && p.offset == 0);
    IS(hb_begin(HALL, DESK).start == 5);
    p = hb_replay(HALL, DESK, NULL, 0);
    IS(p.refusal == HB_DESKS_OPEN && p.offset == 0);
    p = hb_replay(hall, sizeof hall - 1, DESK, NULL, 0);
    IS(p.refusal == HB_UNSOUND && p.offset == 0);

    p = replayed(WHOLE, 1, VERSION_ROOMS);
    IS(p.refusal == HB_NO_KEY_ROOM && p.offset == FIRST && had(2, "one"));
    p = replayed(WHOLE, KEY_ROOMS, 2);
    IS(p.refusal == HB_NO_VERSION_ROOM && p.offset == FIRST && hb_counts(HALL, DESK).versions == 1);
    journal[FIRST] = 'M';
    p = replayed(WHOLE, KEY_ROOMS, VERSION_ROOMS);
    IS(p.refusal == HB_MALFORMED && p.offset == FIRST && hb_counts(HALL, DESK).versions == 1);
}

/* A begin, its put and its read of A1, a delete by a start that is not open, two commits, an abort, a sweep. */
static const uint8_t night[] = {
    0x4c, 16,                                                                /* at 0 */
    0x4c, 18, 1, 0, 0, 2, 0, 0, 0, 'A', '1', 4, 0, 0, 0, 'l', 'o', 'o', 'p', /* at 2 */
    0x4c, 17, 1, 0, 0, 2, 0, 0, 0, 'A', '1',                                 /* at 21 */
    0x4c, 19, 0, 9, 0, 0, 0, 0, 0, 0, 0, 1, 0, 0, 0, 'B',                    /* at 32 */
    0x4c, 20, 1, 0, 0,                                                       /* at 48 */
    0x4c, 20, 0, 2, 0, 0, 0, 0, 0, 0, 0,                                     /* at 53 */
    0x4c, 21, 0, 1, 2, 3, 4, 5, 6, 7, 8,                                     /* at 64 */
    0x4c, 22, 8, 0, 0, 0, 0, 0, 0, 0,                                        /* at 75 */
};
enum { NIGHT_RECORDS = 8, NIGHT_ANSWERS = NIGHT_RECORDS * 18 + 100 + 2 * 528 };

static uint8_t built[HB_BATCH_MAX * 2 + 2], answers[HB_BATCH_MAX * HB_HEAD_LEN + 1];

static void build(void)
{
    hb_builder b = {built, sizeof night, 0, 0, 0, 0};
    hb_who place = hb_add_begin(&b);
    IS(b.len == 2 && hb_add_put(&b, place, TEXT("A1"), TEXT("loop")) == 21);
    IS(hb_add_read(&b, place, TEXT("A1")) == 32 && hb_add_delete(&b, hb_started(9), TEXT("B")) == 48);
    IS(hb_add_commit(&b, place) == 53 && hb_add_commit(&b, hb_started(2)) == 64);
    IS(hb_add_abort(&b, hb_started(0x0807060504030201)) == 75 && hb_add_sweep(&b, 8) == sizeof night && !b.full);
    IS(b.records == NIGHT_RECORDS && b.answers_len == NIGHT_ANSWERS && memcmp(built, night, sizeof night) == 0);
    IS(hb_add_sweep(&b, 8) == 0 && b.full && b.len == sizeof night && b.answers_len == NIGHT_ANSWERS);

    hb_builder small = {built, 13, 0, 0, 0, 0}; /* once it is full nothing is added, though it would fit */
    IS(hb_add_read(&small, hb_started(1), NULL, SIZE_MAX) == 0 && hb_add_commit(&small, hb_started(1)) == 0);
    IS(small.full && small.len == 0 && small.records == 0 && small.answers_len == 0);

    hb_builder most = {built, sizeof built, 0, 0, 0, 0};
    for (size_t i = 1; i <= HB_BATCH_MAX; i++)
        IS(hb_add(&most, HB_BEGIN, hb_started(0), NULL, 0, NULL, 0) == 2 * i);
    IS(hb_add(&most, HB_BEGIN, hb_started(0), NULL, 0, NULL, 0) == 0 && most.full && most.records == HB_BATCH_MAX);
}

/* Whether a batch is refused so, and changes nothing. */
static int refuses(const uint8_t *bytes, size_t len, size_t room, uint64_t refusal, size_t offset)
{
    static uint8_t hall_was[sizeof hall], desk_was[sizeof desk];
    memcpy(hall_was, hall, sizeof hall);
    memcpy(desk_was, desk, sizeof desk);
    memset(answers, UNTOUCHED, sizeof answers);
    hb_batched b = hb_batch(HALL, DESK, bytes, len, answers, room);
    for (size_t i = 0; i < sizeof answers; i++)
        if (answers[i] != UNTOUCHED)
            return 0;
    return b.refusal == refusal && b.len == 0 && b.offset == offset && memcmp(hall_was, hall, sizeof hall) == 0 &&
           memcmp(desk_was, desk, sizeof desk) == 0;
}

static void batch_refused(void)
{
    static const size_t starts[] = {0, 2, 21, 32, 48, 53, 64, 75, sizeof night};
    IS(hb_make(HALL, DESK, SIZES) == HB_OK);
    hb_batched b = hb_batch(hall, sizeof hall - 1, DESK, NULL, 0, NULL, 0);
    IS(b.refusal == HB_UNSOUND && b.len == 0 && b.offset == 0);
    for (size_t i = 0; i < NIGHT_RECORDS; i++) {
        for (size_t len = starts[i] + 1; len < starts[i + 1]; len++)
            IS(refuses(night, len, sizeof answers, HB_MALFORMED_BATCH, starts[i]));
        memcpy(built, night, sizeof night);
        built[starts[i] + 1] = 23;
        IS(refuses(built, sizeof night, 0, HB_RESERVED_KIND, starts[i]));
        built[starts[i]] = 'M';
        IS(refuses(built, sizeof night, 0, HB_MALFORMED_BATCH, starts[i]));
    }
    memcpy(built, night, sizeof night);
    built[51] = 1; /* the place of a put */
    IS(refuses(built, sizeof night, sizeof answers, HB_MALFORMED_BATCH, 48));
    IS(refuses(night, sizeof night, NIGHT_ANSWERS - 1, HB_SHORT_OUTPUT, 0));

    for (size_t i = 0; i < sizeof built; i += 2)
        memcpy(built + i, night, 2);
    built[sizeof built - 1] = 23; /* one too many is malformed, whatever it is */
    IS(refuses(built, sizeof built, sizeof answers, HB_MALFORMED_BATCH, sizeof built - 2));
    b = hb_batch(HALL, DESK, built, sizeof built - 2, answers, sizeof answers);
    IS(b.refusal == HB_OK && b.len == sizeof answers - 1 && answers[b.len] == UNTOUCHED);
    IS(hb_head_at(answers, DESKS - 1).second == DESKS - 1 && hb_head_at(answers, DESKS).refusal == HB_DESKS_TAKEN);
}

/* Whether the head says so. */
static int says(hb_head head, uint64_t first, uint64_t second, uint64_t refusal, uint64_t flag)
{
    return head.first == first && head.second == second && head.refusal == refusal && head.flag == flag;
}

static void batch(void)
{
    IS(hb_make(HALL, DESK, SIZES) == HB_OK);
    hb_batched b = hb_batch(HALL, DESK, NULL, 0, NULL, 0);
    IS(b.refusal == HB_OK && b.len == 0 && b.offset == 0);
    IS(hb_begin(HALL, DESK).start == 1 && hb_begin(HALL, DESK).start == 2);
    IS(hb_put(HALL, DESK, 2, TEXT("A1"), TEXT("direct")) == HB_OK && hb_abort(HALL, DESK, 1) == HB_OK);
    memset(answers, UNTOUCHED, sizeof answers);
    b = hb_batch(HALL, DESK, night, sizeof night, answers, NIGHT_ANSWERS);
    IS(b.refusal == HB_OK && b.len == NIGHT_ANSWERS && b.offset == 0 && answers[NIGHT_ANSWERS] == UNTOUCHED);

    hb_answer a[NIGHT_RECORDS + 1] = {hb_first_answer(night, sizeof night, answers)};
    for (size_t i = 0; i < NIGHT_RECORDS; i++) {
        IS(a[i].left > 0 && a[i].head == answers + i * HB_HEAD_LEN);
        a[i + 1] = hb_next_answer(a[i]);
    }
    IS(a[NIGHT_RECORDS].left == 0 && a[NIGHT_RECORDS].detail == answers + NIGHT_ANSWERS);
    IS(says(hb_head_at(answers, 0), 3, 0, HB_OK, 0) && says(hb_head_at(answers, 1), 0, 0, HB_OK, 0));
    IS(says(hb_head_at(answers, 2), 0, 0, HB_OK, HB_OWN_VALUE) && a[2].record[1] == HB_READ);
    hb_value v = hb_value_at(a[2].detail);
    IS(v.len == 4 && memcmp(v.bytes, "loop", 4) == 0 && v.bytes[4] == 0);
    IS(says(hb_head_at(answers, 3), 0, 0, HB_NOT_OPEN, 0) && says(hb_head_at(answers, 4), 4, 0, HB_OK, 0));
    IS(says(hb_head_at(answers, 5), 1, 0, HB_CONFLICT, 0) && a[4].detail[0] == 0);
    memcpy(list, a[5].detail, sizeof list);
    IS(names(0, "A1", 4) && hb_clash_at(a[5].detail, 1).key_len == 0);
    IS(says(hb_head_at(answers, 6), 0, 0, HB_NOT_OPEN, 0) && says(hb_head_at(answers, 7), 4, 0, HB_OK, 0));
}

static void desks(void)
{
    static uint8_t most[HB_DESK_LEN(HB_MAX_DESKS)];
    static const size_t numbers[] = {1, 2, 63, HB_MAX_DESKS};
    for (size_t i = 0; i < sizeof numbers / sizeof *numbers; i++) {
        size_t n = numbers[i], len = HB_DESK_LEN(n);
        IS(hb_make(HALL, most, len - 1, KEY_ROOMS, VERSION_ROOMS, n) == HB_BAD_SIZES);
        IS(hb_make(HALL, most, len, KEY_ROOMS, VERSION_ROOMS, n) == HB_OK);
        for (size_t at = 0; at < n; at++)
            IS(hb_begin(HALL, most, len).desk == at);
        IS(hb_begin(HALL, most, len).refusal == HB_DESKS_TAKEN);
    }
    IS(hb_make(HALL, most, sizeof most, KEY_ROOMS, VERSION_ROOMS, HB_MAX_DESKS + 1) == HB_BAD_SIZES);
}

/* A store whose next number is 2^64 - 2: a begin takes it, and nothing is left for a commit. */
static void last_number(void)
{
    static const uint8_t last[] = {'D',  'S',  'E',  'M',  'V',  'C',  'C',  '1',  0xfe, 0xff,
                                   0xff, 0xff, 0xff, 0xff, 0xff, 0xff, 0,    0,    0,    0};
    IS(hb_load(last, sizeof last, HALL, DESK, 1, 1, 1).refusal == HB_OK);
    IS(hb_begin(HALL, DESK).start == UINT64_MAX - 1);
    IS(hb_put(HALL, DESK, UINT64_MAX - 1, TEXT("A1"), TEXT("loop")) == HB_OK);
    IS(hb_commit(HALL, DESK, UINT64_MAX - 1, NO_LIST).refusal == HB_SPENT);
}

static void words(void)
{
    const char *none = hb_refusal_text(HB_RESERVED_KIND + 1);
    for (uint64_t a = 0; a <= HB_RESERVED_KIND; a++) {
        IS(strcmp(hb_refusal_text(a), none) != 0);
        for (uint64_t b = 0; b < a; b++)
            IS(strcmp(hb_refusal_text(a), hb_refusal_text(b)) != 0);
    }
    char version[32];
    snprintf(version, sizeof version, "%d.%d.%d", HB_VERSION_MAJOR, HB_VERSION_MINOR, HB_VERSION_PATCH);
    IS(strcmp(version, HB_VERSION) == 0);
}

int main(void)
{
    make();
    write_and_read();
    commit();
    fill();
    sweep_and_count();
    dump_and_load();
    thin();
    desks();
    last_number();
    clash();
    record();
    record_longest();
    replay();
    build();
    batch_refused();
    batch();
    words();
    return wrong != 0;
}
