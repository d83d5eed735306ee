// The stores that are measured, one for each library: what they hold, and the memories it stands in.
#ifndef STORES_H
#define STORES_H

#include <stdbool.h>
#include <stddef.h>
#include <stdint.h>
#include <stdio.h>
#include <string.h>

#include "hourbracken.h"

// ---- libraries

#define EACH_CALL(X) \
    X(load) X(begin) X(read) X(newest) X(put) X(commit) X(commit_journal) X(replay) X(batch) X(abort) X(sweep) X(thin) \
    X(dump)
#define DECLARATION(call) extern __typeof__(hb_##call) other_hb_##call;
#define POINTER(call) __typeof__(hb_##call) *call;
#define THIS(call) hb_##call,
#define OTHER(call) other_hb_##call,

EACH_CALL(DECLARATION)
static const struct library {
    EACH_CALL(POINTER)
} libraries[SIDES] = {
    {EACH_CALL(THIS)},
#if SIDES == 2
    {EACH_CALL(OTHER)},
#endif
};

// ---- stores

enum { KEY_LEN = 5, VALUE_LEN = 4 };

static const struct room {
    unsigned keys, versions, chain; // key rooms, all taken; version rooms; versions of each key
    const char *title;
} rooms[] = {
    {8, 64, 4, "Rooms 8/64: 8 keys, 32 versions"},
    {512, 4096, 4, "Rooms 512/4,096: 512 keys, 2,048 versions"},
    {1024, 16384, 16, "Rooms 1,024/16,384: 1,024 keys, 16,384 versions"},
    {1024, 65536, 64, "Rooms 1,024/65,536: 1,024 keys, 65,536 versions"},
};
enum { ROOMS = sizeof rooms / sizeof *rooms };

#define DESK_LEN HB_DESK_LEN(HB_MAX_DESKS)

// How bytes are cleared and copied depends on where they stand, so each memory begins at a page.
struct image {
    _Alignas(4096) uint8_t hall[HB_HALL_LEN(HB_MAX_KEY_ROOMS, HB_MAX_VERSION_ROOMS)];
    _Alignas(4096) uint8_t desk[DESK_LEN];
    uint64_t counter, start; // the last number issued; that of the last begin
};

static struct store {
    const struct library *lib;
    struct image base, ready, live; // with the open desks; as the measured call finds it; as it leaves it
    uint8_t journal[HB_RECORD_LEN]; // of the last commit that wrote one
    size_t journal_len;
} stores[SIDES];

static const struct room *room;
static size_t hall_len, dump_len;
static unsigned desks; // open ones, without the measured transaction's own
static bool old;       // one of them began before all versions
static _Alignas(4096) uint8_t dump[HB_DUMP_LEN(HB_MAX_KEY_ROOMS, HB_MAX_VERSION_ROOMS)];
static _Alignas(4096) uint8_t out[sizeof dump];

#define HALL(s) (s)->live.hall, hall_len
#define DESK(s) (s)->live.desk, DESK_LEN
#define JOURNAL(s) (s)->journal, sizeof (s)->journal

static void copy(struct image *to, const struct image *from)
{
    memcpy(to->hall, from->hall, hall_len);
    memcpy(to->desk, from->desk, DESK_LEN);
    to->counter = from->counter;
    to->start = from->start;
}

static const uint8_t *key_of(unsigned key)
{
    static char text[16];
    snprintf(text, sizeof text, "K%04u", key);
    return (const uint8_t *)text;
}

static const uint8_t *value_of(unsigned key, unsigned round)
{
    static uint8_t value[VALUE_LEN];
    memcpy(value, (uint8_t[]){round, 0, key >> 8, key & 255}, VALUE_LEN);
    return value;
}

// The i-th key of so many, spread over those that there are, from a third on: halving would find the middle one at once.
static unsigned spread(unsigned i, unsigned writes) { return (room->keys / 3 + i * room->keys / writes) % room->keys; }

// A version's number, if transactions of sixteen writes, one after the other, give each key a version, round by round.
static uint64_t number_of(unsigned key, unsigned round) { return 2 * ((room->keys + 15) / 16 * round + key / 16) + 2; }

static uint64_t last_number(void) { return number_of(room->keys - 1, room->chain - 1); }

static uint8_t *put_number(uint8_t *at, uint64_t number, unsigned len)
{
    for (unsigned i = 0; i < len; i++)
        *at++ = number >> 8 * i;
    return at;
}

enum { HEAD_LEN = 20 };

// How a dump begins: the next number, and how many keys there are.
static uint8_t *put_head(uint8_t *at, uint64_t next, unsigned keys)
{
    return put_number(put_number(mempcpy(at, "DSEMVCC1", 8), next, 8), keys, 4);
}

// The dump of the room's store.
static void compose_dump(void)
{
    uint8_t *at = put_head(dump, last_number() + 1, room->keys);
    for (unsigned key = 0; key < room->keys; key++) {
        at = mempcpy(put_number(at, KEY_LEN, 4), key_of(key), KEY_LEN);
        at = put_number(at, room->chain, 4);
        for (unsigned round = 0; round < room->chain; round++) {
            at = put_number(put_number(at, number_of(key, round), 8), 1, 1);
            at = mempcpy(put_number(at, VALUE_LEN, 4), value_of(key, round), VALUE_LEN);
        }
    }
    dump_len = at - dump;
}

#endif
