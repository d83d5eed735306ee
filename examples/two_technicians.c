/* Two technicians edit one seating plan. The second, who began before the first was done, is refused and told which
 * seats it is about. */
#include "hourbracken.h"

#include <inttypes.h>
#include <stdio.h>
#include <string.h>

enum { KEY_ROOMS = 8, VERSION_ROOMS = 64, DESKS = 2 };

static uint8_t hall[HB_HALL_LEN(KEY_ROOMS, VERSION_ROOMS)];
static uint8_t desk[HB_DESK_LEN(DESKS)];

static uint64_t begin(void)
{
    return hb_begin(hall, sizeof hall, desk, sizeof desk).start;
}

static void assign(uint64_t start, const char *seat, const char *feed)
{
    uint64_t refusal = hb_put(hall, sizeof hall, desk, sizeof desk, start, (const uint8_t *)seat, strlen(seat),
                              (const uint8_t *)feed, strlen(feed));
    if (refusal != HB_OK)
        printf("%s: refused, %s\n", seat, hb_refusal_text(refusal));
}

static void show(const char *who, uint64_t start, const char *seat)
{
    hb_found f = hb_read(hall, sizeof hall, desk, sizeof desk, start, (const uint8_t *)seat, strlen(seat));
    if (f.refusal != HB_OK)
        printf("%s: refused, %s\n", who, hb_refusal_text(f.refusal));
    else if (f.kind == HB_NOTHING_THERE)
        printf("%s: %s gets nothing\n", who, seat);
    else
        printf("%s: %s gets %.*s\n", who, seat, (int)f.len, (const char *)hb_found_bytes(f, hall, desk));
}

static void tell(const char *who, const uint8_t *list, size_t clashes)
{
    printf("%s: refused", who);
    for (size_t i = 0; i < clashes; i++) {
        hb_clash clash = hb_clash_at(list, i);
        printf(", %.*s %s %" PRIu64, (int)clash.key_len, (const char *)clash.key, i == 0 ? "was changed by" : "by",
               clash.newest);
    }
    puts("");
}

static void finish(const char *who, uint64_t start)
{
    uint8_t list[HB_CLASH_LIST_LEN];
    hb_committed c = hb_commit(hall, sizeof hall, desk, sizeof desk, start, list, sizeof list);
    if (c.refusal == HB_OK && c.number != 0)
        printf("%s: saved as %" PRIu64 "\n", who, c.number);
    else if (c.refusal == HB_OK)
        printf("%s: nothing to save\n", who);
    else if (c.refusal == HB_CONFLICT)
        tell(who, list, c.clashes);
    else
        printf("%s: refused, %s\n", who, hb_refusal_text(c.refusal));
}

int main(void)
{
    if (hb_make(hall, sizeof hall, desk, sizeof desk, KEY_ROOMS, VERSION_ROOMS, DESKS) != HB_OK)
        return 1;

    uint64_t anna = begin();
    uint64_t bram = begin();
    assign(anna, "A1", "loop");
    assign(anna, "A2", "direct");
    show("anna", anna, "A1");
    show("bram", bram, "A1");
    finish("anna", anna);

    /* bram still sees the plan as it was when he began, and writes two seats that anna has changed since */
    show("bram", bram, "A1");
    assign(bram, "B7", "direct");
    assign(bram, "A2", "loop");
    assign(bram, "A1", "direct");
    finish("bram", bram);

    /* he begins again, and now sees what she saved */
    bram = begin();
    show("bram", bram, "A2");
    assign(bram, "A2", "loop");
    finish("bram", bram);

    hb_swept s = hb_sweep(hall, sizeof hall, desk, sizeof desk, UINT64_MAX);
    hb_counted n = hb_counts(hall, sizeof hall, desk, sizeof desk);
    printf("swept: %" PRIu64 " dropped, %" PRIu64 " seats in %" PRIu64 " versions, %" PRIu64 " open\n", s.dropped,
           n.keys, n.versions, n.desks);
    return 0;
}
