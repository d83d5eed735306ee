/* Hourbracken, the seat store: a proved store of versions with snapshot-isolated transactions, in two lent memories.
 *
 * Hall memory holds the sizes, the counter, the floor, the keys and the committed versions; desk memory holds the open
 * transactions with their unsaved writes. There is no heap, no thread and no global state: a store is the bytes of its
 * two memories, and every call is lent them. Any bytes, numbers, lengths and order of calls are answered: a call that
 * cannot be done answers the number of its refusal and changes no byte, but for a conflict, which closes its
 * transaction, and a replay that stops at a record, which has done those before it.
 *
 * Yours to keep, since no callee can test it:
 *   - a pointer and the length after it name bytes that are there; a pointer with length 0 is not followed;
 *   - memory that a call may change (uint8_t *, without const) overlaps nothing else that the same call is lent. Hall
 *     and desk memory never overlap. A key or a value may lie in hall memory where that is const;
 *   - no two threads are in calls on the same memories at once.
 * Bytes past the length that a memory needs are neither looked at nor changed.
 *
 * libhourbracken.a is for x86-64 Linux; C99 and later, and C++. ./embed tests it and writes hourbracken.pc beside it:
 *   cc -std=c99 -Iinclude program.c target/staticlib/libhourbracken.a -o program
 *   cc -std=c99 program.c $(PKG_CONFIG_PATH=target/staticlib pkg-config --cflags --libs hourbracken) -o program */
#ifndef HOURBRACKEN_H
#define HOURBRACKEN_H

#include <stddef.h>
#include <stdint.h>

#ifdef __cplusplus
extern "C" {
#endif

/* ---- version: of this header, of the archive built beside it and of the crate in rust/ */

#define HB_VERSION_MAJOR 0
#define HB_VERSION_MINOR 4
#define HB_VERSION_PATCH 0
#define HB_VERSION "0.4.0"

/* An answer that is not looked at may be a refusal: compilers that can say so do. */
#if defined(__GNUC__) || defined(__clang__)
#define HB_NODISCARD __attribute__((warn_unused_result))
#else
#define HB_NODISCARD
#endif

/* ---- sizes: key rooms, version rooms and desks are chosen at make or load, the other limits are fixed */

#define HB_MAX_KEY 24              /* bytes; a key has at least 1 */
#define HB_FIRST_KEY_BYTE 33       /* '!', the least byte of a key: a space is none */
#define HB_LAST_KEY_BYTE 126       /* '~', the greatest: what does not print is none */
#define HB_MAX_VALUE 96            /* bytes; an empty value is a value, not a deletion */
#define HB_MAX_KEY_ROOMS 1024      /* at least 1 */
#define HB_MAX_VERSION_ROOMS 65536 /* at least 1 */
#define HB_MAX_DESKS 64            /* transactions open at once; at least 1 */
#define HB_MAX_WRITES 16           /* different keys that one transaction may write */
#define HB_MAX_CLASHES 16          /* keys that one commit may clash in */
#define HB_BATCH_MAX 4096          /* records of one batch */

/* The lengths that the memories need; these are constant expressions. */
#define HB_HALL_LEN(key_rooms, version_rooms) ((size_t)64 + (size_t)29 * (key_rooms) + (size_t)109 * (version_rooms))
#define HB_DESK_LEN(desks) ((size_t)9 + (size_t)2025 * (desks))

/* No dump of a store with these rooms is longer. */
#define HB_DUMP_LEN(key_rooms, version_rooms) ((size_t)20 + (size_t)32 * (key_rooms) + (size_t)109 * (version_rooms))

/* A record of a conflict's list: the newest number, 8 bytes with the lowest first; a byte for the key's length; the
 * key, with zeros up to HB_MAX_KEY bytes. hb_clash_at reads it. HB_CLASH_LIST_LEN has room for every conflict. */
#define HB_CLASH_LEN ((size_t)33)
#define HB_CLASH_LIST_LEN (HB_MAX_CLASHES * HB_CLASH_LEN)

/* No record of a commit is longer: the mark, a length, the number and a count, then for each write a length, the key, a
 * tag, a length and the value. */
#define HB_RECORD_LEN ((size_t)2082)

/* No record of a batch is longer if its key and its value are within the limits above. */
#define HB_BATCH_RECORD_LEN ((size_t)139)

/* What a batch answers: a head for each record, then for each read a length and the value, for each commit a conflict's
 * list, both with zeros up to their widths. No record's answer takes more than HB_ANSWER_LEN. */
#define HB_HEAD_LEN ((size_t)18)
#define HB_VALUE_LEN ((size_t)100)
#define HB_ANSWER_LEN (HB_HEAD_LEN + HB_CLASH_LIST_LEN)

/* ---- refusals */

enum hb_refusal {
    HB_OK = 0,               /* nothing is refused */
    HB_UNSOUND = 1,          /* a lent memory is not that of a sound store */
    HB_BAD_SIZES = 2,        /* rooms or desks out of range, or a memory shorter than they need */
    HB_BAD_KEY = 3,          /* key length outside 1 to 24, or a byte outside 33 to 126 */
    HB_LONG_VALUE = 4,       /* value over 96 bytes */
    HB_NOT_OPEN = 5,         /* no open transaction with that start */
    HB_DESKS_TAKEN = 6,      /* all desks are taken, as many as were chosen */
    HB_TOO_MANY_WRITES = 7,  /* a seventeenth key */
    HB_SPENT = 8,            /* the last number, 2^64 - 2, is issued */
    HB_CONFLICT = 9,         /* other commits came between; the transaction is closed */
    HB_NO_KEY_ROOM = 10,     /* more new keys than free key rooms; a transaction stays open */
    HB_NO_VERSION_ROOM = 11, /* more writes than free version rooms; a transaction stays open */
    HB_SHORT_OUTPUT = 12,    /* output shorter than dump, answers or record; the record's transaction stays open */
    HB_CUT_SHORT = 13,       /* dump cut short */
    HB_MALFORMED = 14,       /* dump malformed, or a record of the journal */
    HB_TOO_BIG = 15,         /* dump too big for the rooms */
    HB_OUT_OF_REACH = 16,    /* a number below the floor or above the counter */
    HB_DESKS_OPEN = 17,      /* a replay beside an open transaction */
    HB_MALFORMED_BATCH = 18, /* a record of a batch is malformed, or the 4,097th */
    HB_RESERVED_KIND = 19    /* a record of a batch has a kind of 23 to 31 */
};

/* What a refusal says, for a log or a person. */
static inline const char *hb_refusal_text(uint64_t refusal)
{
    switch (refusal) {
    case HB_OK: return "done";
    case HB_UNSOUND: return "a memory is not that of a sound store";
    case HB_BAD_SIZES: return "rooms or desks out of range, or a memory too short for them";
    case HB_BAD_KEY: return "a key has 1 to 24 bytes, each of 33 to 126";
    case HB_LONG_VALUE: return "a value has at most 96 bytes";
    case HB_NOT_OPEN: return "no open transaction has that start";
    case HB_DESKS_TAKEN: return "all desks are taken";
    case HB_TOO_MANY_WRITES: return "a transaction writes at most 16 keys";
    case HB_SPENT: return "the last number is issued";
    case HB_CONFLICT: return "other commits came between, and the transaction is closed";
    case HB_NO_KEY_ROOM: return "the commit has more new keys than key rooms are free, and is not done";
    case HB_NO_VERSION_ROOM: return "the commit has more writes than version rooms are free, and is not done";
    case HB_SHORT_OUTPUT: return "the output is shorter than the dump, the record or the answers";
    case HB_CUT_SHORT: return "the dump is cut short";
    case HB_MALFORMED: return "the dump or the record is malformed";
    case HB_TOO_BIG: return "the dump is too big for the rooms";
    case HB_OUT_OF_REACH: return "the number is below the floor or above the counter";
    case HB_DESKS_OPEN: return "a transaction is open, and a replay takes none";
    case HB_MALFORMED_BATCH: return "a record of the batch is malformed, or one too many";
    case HB_RESERVED_KIND: return "a record of the batch has a reserved kind";
    default: return "no refusal has this number";
    }
}

/* ---- answers: `refusal` is one of the numbers above. The other fields speak where it is HB_OK, unless they say
 * otherwise. A field that does not speak is 0. */

typedef struct {
    uint64_t refusal;
    size_t offset; /* of HB_CUT_SHORT, HB_MALFORMED and HB_TOO_BIG: where the offending field starts; else 0 */
} hb_loaded;

typedef struct {
    uint64_t refusal;
    uint64_t start; /* the transaction's number, and its handle in the other calls */
    size_t desk;    /* the lowest that was free, from 0 */
} hb_begun;

enum hb_kind {
    HB_NOTHING_THERE = 0, /* deleted, or never written, or not yet at that start or number */
    HB_OWN_VALUE = 1,     /* the transaction's own write: its bytes stand in desk memory */
    HB_HALL_VALUE = 2     /* a committed version: its bytes stand in hall memory */
};

/* The value is the `len` bytes from `at` of the memory that its kind names. They are a part of that memory and no copy:
 * read them before the next call that may change it. Of HB_NOTHING_THERE both are 0. */
typedef struct {
    uint64_t refusal;
    uint64_t kind;
    size_t at;
    size_t len;
} hb_found;

typedef struct {
    uint64_t refusal;
    uint64_t number; /* of the new versions; 0 if there was nothing to write */
    size_t clashes;  /* of HB_CONFLICT: how many keys clash, at least 1, whatever the list has room for; else 0 */
} hb_committed;

typedef struct {
    uint64_t refusal;
    uint64_t number; /* of the new versions; 0 if there was nothing to write */
    size_t clashes;  /* of HB_CONFLICT: as in hb_committed; else 0 */
    size_t len;      /* bytes of the record; 0 if there was nothing to write */
} hb_recorded;

/* Whatever is answered, the commits of the journal's first `offset` bytes are done, and no other. */
typedef struct {
    uint64_t refusal;
    size_t offset; /* where the whole records end: the journal's length, or the start of a record that is cut off; of
                      HB_MALFORMED, HB_NO_KEY_ROOM, HB_NO_VERSION_ROOM: the start of the record that stops it; else 0 */
} hb_replayed;

typedef struct {
    uint64_t refusal;
    uint64_t cutoff;
    uint64_t dropped; /* versions that are gone */
} hb_swept;

typedef struct {
    uint64_t refusal;
    uint64_t dropped; /* versions that are gone */
} hb_thinned;

typedef struct {
    uint64_t refusal;
    uint64_t keys;
    uint64_t versions; /* deletions among them */
    uint64_t desks;    /* open transactions */
} hb_counted;

typedef struct {
    uint64_t refusal;
    size_t len; /* bytes written */
} hb_dumped;

typedef struct {
    uint64_t refusal; /* of the batch as a whole; that of a record stands in its head */
    size_t len;       /* bytes of the answers */
    size_t offset;    /* of HB_MALFORMED_BATCH and HB_RESERVED_KIND: where the record starts; else 0 */
} hb_batched;

/* ---- calls; in brackets the refusals that each may answer, in the order in which they are tried */

/* An empty store of these sizes; what the memories held is gone. [2] */
HB_NODISCARD uint64_t hb_make(uint8_t *hall, size_t hall_len, uint8_t *desk, size_t desk_len, uint64_t key_rooms,
                              uint64_t version_rooms, uint64_t desks);

/* The store of a dump, which tells no sizes, in these, with all desks free and the floor at the counter. A dump that is
 * refused leaves both memories as they were. [2, 13 to 15] */
HB_NODISCARD hb_loaded hb_load(const uint8_t *dump, size_t dump_len, uint8_t *hall, size_t hall_len, uint8_t *desk,
                               size_t desk_len, uint64_t key_rooms, uint64_t version_rooms, uint64_t desks);

/* Opens a transaction: it sees what is committed by now, whatever others do later. [1, 6, 8] */
HB_NODISCARD hb_begun hb_begin(uint8_t *hall, size_t hall_len, uint8_t *desk, size_t desk_len);

/* What the transaction reads: its own write of the key, else the newest version at or below its start. [1, 3, 5] */
HB_NODISCARD hb_found hb_read(const uint8_t *hall, size_t hall_len, const uint8_t *desk, size_t desk_len,
                              uint64_t start, const uint8_t *key, size_t key_len);

/* The key's newest version, outside any transaction: HB_HALL_VALUE or HB_NOTHING_THERE. [1, 3] */
HB_NODISCARD hb_found hb_newest(const uint8_t *hall, size_t hall_len, const uint8_t *key, size_t key_len);

/* The same as it stood at a number: the key's newest version at or below it. Numbers from the floor to the counter are
 * answered. The floor is 0 in a new store and the counter after a load; sweep and thin raise it. [1, 3, 16] */
HB_NODISCARD hb_found hb_as_of(const uint8_t *hall, size_t hall_len, uint64_t number, const uint8_t *key,
                               size_t key_len);

/* Writes into the transaction's desk; nobody else sees it before the commit. [1, 3, 4, 5, 7] */
HB_NODISCARD uint64_t hb_put(const uint8_t *hall, size_t hall_len, uint8_t *desk, size_t desk_len, uint64_t start,
                             const uint8_t *key, size_t key_len, const uint8_t *value, size_t value_len);

/* The same with a deletion. [1, 3, 5, 7] */
HB_NODISCARD uint64_t hb_delete(const uint8_t *hall, size_t hall_len, uint8_t *desk, size_t desk_len, uint64_t start,
                                const uint8_t *key, size_t key_len);

/* Publishes the transaction's writes under one new number and closes it. A conflict writes a record of HB_CLASH_LEN
 * bytes to the list for each key that the transaction writes and that has a version above its start: ascending by key,
 * as many whole records as fit. Nothing else is written there, and the list may be NULL with length 0.
 * [1, 5, 9, 8, 10, 11] */
HB_NODISCARD hb_committed hb_commit(uint8_t *hall, size_t hall_len, uint8_t *desk, size_t desk_len, uint64_t start,
                                    uint8_t *list, size_t list_len);

/* The same, and the commit's record goes over the front of `journal`, for you to append to what you keep: tell the
 * answer on once the record is on stable storage. HB_RECORD_LEN bytes have room for every record; a commit without
 * writes has none and takes no room. [1, 5, 9, 8, 10, 11, 12] */
HB_NODISCARD hb_recorded hb_commit_journal(uint8_t *hall, size_t hall_len, uint8_t *desk, size_t desk_len,
                                           uint64_t start, uint8_t *list, size_t list_len, uint8_t *journal,
                                           size_t journal_len);

/* Does the commits of a journal again, records one after the other, over a store with all desks free; most often one
 * just loaded from the dump that the journal goes on from. A record that is cut off at the end is left out. Each number
 * is above the counter, which it then is; the floor stays, and sweeps are not in a journal. A refused record stops it,
 * and those before it stand. [1, 17, then 14, 10, 11 for each record] */
HB_NODISCARD hb_replayed hb_replay(uint8_t *hall, size_t hall_len, uint8_t *desk, size_t desk_len,
                                   const uint8_t *journal, size_t journal_len);

/* Closes the transaction; its writes are gone. [1, 5] */
HB_NODISCARD uint64_t hb_abort(const uint8_t *hall, size_t hall_len, uint8_t *desk, size_t desk_len, uint64_t start);

/* Drops what nobody can read any more who began at the cutoff or later; that is the smallest of limit, counter and
 * open starts. A version goes if the next of its key is at or below the cutoff, and so does a deletion that is. A key
 * left without a version goes too and frees its room. The floor rises to the cutoff, also where nothing is dropped.
 * [1] */
HB_NODISCARD hb_swept hb_sweep(uint8_t *hall, size_t hall_len, const uint8_t *desk, size_t desk_len, uint64_t limit);

/* Drops also what lies between the open transactions, where a sweep keeps all since the oldest: a version goes if the
 * next of its key is at or below the limit and no open start is at or above the one and below the other. A deletion at
 * or below the limit that is the oldest its key then holds goes if no open start is below it, and a key left without a
 * version goes. The floor rises to the smaller of limit and counter, whatever is open, also where nothing is dropped.
 * With the limit UINT64_MAX no key is left more versions than there are open transactions, and one. [1] */
HB_NODISCARD hb_thinned hb_thin(uint8_t *hall, size_t hall_len, const uint8_t *desk, size_t desk_len, uint64_t limit);

/* Does the calls of a batch, record after record, as if each were made singly, but tests the memories once for all. A
 * call that is refused has its refusal in its head, and the next is done. The answers go over the front of `answers`.
 * The batch is looked at whole before anything is done, and one that is refused changes nothing, `answers` neither.
 * hb_add_begin and its like build a batch, hb_first_answer goes through its answers.
 * [1, 18 or 19 of the first such record, 12] */
HB_NODISCARD hb_batched hb_batch(uint8_t *hall, size_t hall_len, uint8_t *desk, size_t desk_len, const uint8_t *batch,
                                 size_t batch_len, uint8_t *answers, size_t answers_len);

/* What is held, and what is open. [1] */
HB_NODISCARD hb_counted hb_counts(const uint8_t *hall, size_t hall_len, const uint8_t *desk, size_t desk_len);

/* Writes the dump over the front of the output; open transactions are not in it. [1, 12] */
HB_NODISCARD hb_dumped hb_dump(const uint8_t *hall, size_t hall_len, uint8_t *out, size_t out_len);

/* The bytes that a read found, of which there are found.len. */
static inline const uint8_t *hb_found_bytes(hb_found found, const uint8_t *hall, const uint8_t *desk)
{
    return (found.kind == HB_OWN_VALUE ? desk : hall) + found.at;
}

/* A number of so many bytes, the lowest first. */
static inline uint64_t hb_number(const uint8_t *bytes, size_t width)
{
    uint64_t number = 0;
    while (width > 0)
        number = number << 8 | bytes[--width];
    return number;
}

/* A key that stands in the way of a commit, and the number of its newest version. The bytes are a part of the list. */
typedef struct hb_clash {
    uint64_t newest;
    const uint8_t *key;
    size_t key_len;
} hb_clash;

/* The i-th record of a conflict's list, from 0, of the hb_committed.clashes that there are; it must have fit. */
static inline hb_clash hb_clash_at(const uint8_t *list, size_t i)
{
    const uint8_t *record = list + i * HB_CLASH_LEN;
    hb_clash clash = {hb_number(record, 8), record + 9, record[8]};
    return clash;
}

/* ---- batches: built in bytes that you lend, and their answers, one after the other */

#define HB_BATCH_MARK 0x4c /* the first byte of a record; the second is its kind */

enum hb_record_kind {
    HB_BEGIN = 16,
    HB_READ = 17,
    HB_PUT = 18,
    HB_DELETE = 19,
    HB_COMMIT = 20,
    HB_ABORT = 21,
    HB_SWEEP = 22
};

/* Whose record it is: a transaction, by its start, or by the place of its begin in the same batch, from 0. */
typedef struct hb_who {
    uint64_t number;
    int is_place;
} hb_who;

static inline hb_who hb_started(uint64_t start)
{
    hb_who who = {start, 0};
    return who;
}

/* A batch that you build: {bytes, room, 0, 0, 0, 0} is an empty one; hb_batch takes `bytes` and `len`. Once a record
 * finds no room nothing more is added, so that one look at `full` in the end is enough. */
typedef struct hb_builder {
    uint8_t *bytes;
    size_t room;        /* how many bytes you lend */
    size_t len;         /* how many of them the records take */
    size_t records;     /* at most HB_BATCH_MAX */
    size_t answers_len; /* how many bytes the answers take */
    int full;           /* a record found no room, or would have been one too many */
} hb_builder;

static inline void hb_add_bytes(hb_builder *batch, const uint8_t *bytes, size_t len)
{
    batch->full |= len > batch->room - batch->len;
    for (size_t i = 0; i < len && !batch->full; i++)
        batch->bytes[batch->len++] = bytes[i];
}

static inline void hb_add_number(hb_builder *batch, uint64_t number, size_t width)
{
    uint8_t bytes[8];
    for (size_t i = 0; i < width; i++)
        bytes[i] = (uint8_t)(number >> 8 * i);
    hb_add_bytes(batch, bytes, width);
}

static inline void hb_add_text(hb_builder *batch, const uint8_t *text, size_t len)
{
    batch->full |= len > UINT32_MAX;
    hb_add_number(batch, len, 4);
    hb_add_bytes(batch, text, len);
}

/* How many bytes of the answers come after the heads for a record of this kind. */
static inline size_t hb_detail_len(uint64_t kind)
{
    return kind == HB_READ ? HB_VALUE_LEN : kind == HB_COMMIT ? HB_CLASH_LIST_LEN : 0;
}

/* A record of any kind, with those of the operands that its kind has; a sweep's limit is the number of `who`. Answers
 * where the batch then ends; 0 if it is full. */
static inline size_t hb_add(hb_builder *batch, enum hb_record_kind kind, hb_who who, const uint8_t *key, size_t key_len,
                            const uint8_t *value, size_t value_len)
{
    hb_builder longer = *batch;
    hb_add_number(&longer, (uint64_t)kind << 8 | HB_BATCH_MARK, 2);
    if (kind != HB_BEGIN && kind != HB_SWEEP)
        hb_add_number(&longer, who.is_place != 0, 1);
    if (kind != HB_BEGIN)
        hb_add_number(&longer, who.number, who.is_place ? 2 : 8);
    if (kind == HB_READ || kind == HB_PUT || kind == HB_DELETE)
        hb_add_text(&longer, key, key_len);
    if (kind == HB_PUT)
        hb_add_text(&longer, value, value_len);
    longer.answers_len += HB_HEAD_LEN + hb_detail_len(kind);
    longer.records++;
    batch->full = longer.full || longer.records > HB_BATCH_MAX;
    if (batch->full)
        return 0;
    *batch = longer;
    return batch->len;
}

/* Answers whose the records are that come after it in this batch. */
static inline hb_who hb_add_begin(hb_builder *batch)
{
    hb_who who = {batch->records, 1};
    hb_add(batch, HB_BEGIN, who, NULL, 0, NULL, 0);
    return who;
}

static inline size_t hb_add_read(hb_builder *batch, hb_who who, const uint8_t *key, size_t key_len)
{
    return hb_add(batch, HB_READ, who, key, key_len, NULL, 0);
}

static inline size_t hb_add_put(hb_builder *batch, hb_who who, const uint8_t *key, size_t key_len, const uint8_t *value,
                                size_t value_len)
{
    return hb_add(batch, HB_PUT, who, key, key_len, value, value_len);
}

static inline size_t hb_add_delete(hb_builder *batch, hb_who who, const uint8_t *key, size_t key_len)
{
    return hb_add(batch, HB_DELETE, who, key, key_len, NULL, 0);
}

static inline size_t hb_add_commit(hb_builder *batch, hb_who who)
{
    return hb_add(batch, HB_COMMIT, who, NULL, 0, NULL, 0);
}

static inline size_t hb_add_abort(hb_builder *batch, hb_who who)
{
    return hb_add(batch, HB_ABORT, who, NULL, 0, NULL, 0);
}

static inline size_t hb_add_sweep(hb_builder *batch, uint64_t limit)
{
    return hb_add(batch, HB_SWEEP, hb_started(limit), NULL, 0, NULL, 0);
}

/* What a record answered, but for values and clashes. What its kind does not answer is 0; so is all but the refusal
 * where that is not HB_OK, and `first` of HB_CONFLICT. */
typedef struct hb_head {
    uint64_t first;  /* a begin's start; a commit's number, of HB_CONFLICT how many keys clash; a sweep's cutoff */
    uint64_t second; /* a begin's desk; how many versions a sweep dropped */
    uint8_t refusal; /* of this call */
    uint8_t flag;    /* a read's hb_kind; 1 for a commit without writes */
} hb_head;

/* That of the record at a place, from 0, of a batch that was done. */
static inline hb_head hb_head_at(const uint8_t *answers, size_t place)
{
    const uint8_t *at = answers + place * HB_HEAD_LEN;
    hb_head head = {hb_number(at, 8), hb_number(at + 8, 8), at[16], at[17]};
    return head;
}

/* A record of a batch that was done, and its answer: record[1] is the kind, hb_head_at(head, 0) is the head. */
typedef struct hb_answer {
    const uint8_t *record;
    size_t left;           /* bytes of the batch from the record on: 0 after the last, and then there is no answer */
    const uint8_t *head;
    const uint8_t *detail; /* of a read for hb_value_at, of a commit for hb_clash_at, of others nothing */
} hb_answer;

/* How many bytes a whole record has. */
static inline size_t hb_batch_record_len(const uint8_t *record)
{
    int kind = record[1], texts = kind == HB_PUT ? 2 : kind == HB_READ || kind == HB_DELETE;
    size_t len = kind == HB_BEGIN ? 2 : kind == HB_SWEEP ? 10 : record[2] == 0 ? 11 : 5;
    for (; texts > 0; texts--)
        len += 4 + hb_number(record + len, 4);
    return len;
}

static inline hb_answer hb_next_answer(hb_answer answer)
{
    size_t len = hb_batch_record_len(answer.record);
    answer.detail += hb_detail_len(answer.record[1]);
    answer.record += len;
    answer.left -= len;
    answer.head += HB_HEAD_LEN;
    return answer;
}

/* The answers of a batch that was done, whoever built it:
 *     for (hb_answer a = hb_first_answer(batch, batch_len, answers); a.left > 0; a = hb_next_answer(a)) */
static inline hb_answer hb_first_answer(const uint8_t *batch, size_t batch_len, const uint8_t *answers)
{
    hb_answer first = {batch, batch_len, answers, answers};
    for (size_t at = 0; at < batch_len; at += hb_batch_record_len(batch + at))
        first.detail += HB_HEAD_LEN;
    return first;
}

/* The value that a read of a batch found. The bytes are a part of the answers. */
typedef struct hb_value {
    const uint8_t *bytes;
    size_t len;
} hb_value;

static inline hb_value hb_value_at(const uint8_t *detail)
{
    hb_value value = {detail + 4, hb_number(detail, 4)};
    return value;
}

/* ---- the layouts that the archive was built for: eight bytes to a field, and none between */

#if defined(__cplusplus) && __cplusplus >= 201103L
#define HB_IS(what) static_assert(what, #what);
#elif defined(__STDC_VERSION__) && __STDC_VERSION__ >= 201112L
#define HB_IS(what) _Static_assert(what, #what);
#else
#define HB_IS(what)
#endif

HB_IS(sizeof(size_t) == 8 && sizeof(void *) == 8)
HB_IS(sizeof(hb_loaded) == 16 && sizeof(hb_begun) == 24 && sizeof(hb_found) == 32 && sizeof(hb_committed) == 24)
HB_IS(sizeof(hb_swept) == 24 && sizeof(hb_thinned) == 16 && sizeof(hb_counted) == 32 && sizeof(hb_dumped) == 16)
HB_IS(offsetof(hb_loaded, offset) == 8 && offsetof(hb_begun, start) == 8 && offsetof(hb_begun, desk) == 16)
HB_IS(offsetof(hb_found, kind) == 8 && offsetof(hb_found, at) == 16 && offsetof(hb_found, len) == 24)
HB_IS(offsetof(hb_committed, number) == 8 && offsetof(hb_committed, clashes) == 16)
HB_IS(sizeof(hb_recorded) == 32 && sizeof(hb_replayed) == 16 && offsetof(hb_replayed, offset) == 8)
HB_IS(offsetof(hb_recorded, number) == 8 && offsetof(hb_recorded, clashes) == 16 && offsetof(hb_recorded, len) == 24)
HB_IS(HB_CLASH_LEN == 8 + 1 + HB_MAX_KEY && HB_MAX_CLASHES == HB_MAX_WRITES)
HB_IS(HB_RECORD_LEN == 2 + 4 + 8 + 4 + HB_MAX_WRITES * (4 + HB_MAX_KEY + 1 + 4 + HB_MAX_VALUE))
HB_IS(offsetof(hb_swept, cutoff) == 8 && offsetof(hb_swept, dropped) == 16 && offsetof(hb_thinned, dropped) == 8)
HB_IS(offsetof(hb_counted, keys) == 8 && offsetof(hb_counted, versions) == 16 && offsetof(hb_counted, desks) == 24)
HB_IS(offsetof(hb_dumped, len) == 8)
HB_IS(sizeof(hb_batched) == 24 && offsetof(hb_batched, len) == 8 && offsetof(hb_batched, offset) == 16)
HB_IS(HB_BATCH_RECORD_LEN == 2 + 9 + 4 + HB_MAX_KEY + 4 + HB_MAX_VALUE && HB_VALUE_LEN == 4 + HB_MAX_VALUE)
#undef HB_IS

#ifdef __cplusplus
}
#endif

#endif
