/* A night's calls in one batch: seats go to standby, what was left open at closing time is ended, and old versions are
 * swept. Each call is answered as if it were made singly. */
#include "hourbracken.h"

#include <inttypes.h>
#include <stdio.h>
#include <string.h>

enum { KEY_ROOMS = 8, VERSION_ROOMS = 64, DESKS = 3, RECORDS = 16 };

static uint8_t hall[HB_HALL_LEN(KEY_ROOMS, VERSION_ROOMS)];
static uint8_t desk[HB_DESK_LEN(DESKS)];

#define TEXT(letters) (const uint8_t *)(letters), strlen(letters)

/* By day: a transaction with one write. */
static uint64_t plan(const char *seat, const char *feed)
{
    uint64_t start = hb_begin(hall, sizeof hall, desk, sizeof desk).start;
    uint64_t refusal = hb_put(hall, sizeof hall, desk, sizeof desk, start, TEXT(seat), TEXT(feed));
    if (refusal != HB_OK)
        printf("%s: refused, %s\n", seat, hb_refusal_text(refusal));
    return start;
}

static void tell_read(hb_head head, const uint8_t *detail)
{
    hb_value value = hb_value_at(detail);
    if (head.flag == HB_NOTHING_THERE)
        puts("read: nothing");
    else
        printf("read: %.*s\n", (int)value.len, (const char *)value.bytes);
}

static void tell_clashes(uint64_t clashes, const uint8_t *detail)
{
    printf("commit: refused");
    for (uint64_t i = 0; i < clashes; i++) {
        hb_clash clash = hb_clash_at(detail, i);
        printf(", %.*s %s %" PRIu64, (int)clash.key_len, (const char *)clash.key, i == 0 ? "was changed by" : "by",
               clash.newest);
    }
    puts("");
}

static void tell_commit(hb_head head)
{
    if (head.flag == 1)
        puts("commit: nothing to save");
    else
        printf("commit: saved as %" PRIu64 "\n", head.first);
}

static void tell(hb_answer answer)
{
    static const char *const names[] = {"begin", "read", "put", "delete", "commit", "abort", "sweep"};
    uint8_t kind = answer.record[1];
    hb_head head = hb_head_at(answer.head, 0);
    if (head.refusal == HB_CONFLICT)
        tell_clashes(head.first, answer.detail);
    else if (head.refusal != HB_OK)
        printf("%s: refused, %s\n", names[kind - HB_BEGIN], hb_refusal_text(head.refusal));
    else if (kind == HB_BEGIN)
        printf("begin: start %" PRIu64 " at desk %" PRIu64 "\n", head.first, head.second);
    else if (kind == HB_READ)
        tell_read(head, answer.detail);
    else if (kind == HB_COMMIT)
        tell_commit(head);
    else if (kind == HB_SWEEP)
        printf("sweep: %" PRIu64 " dropped\n", head.second);
    else
        printf("%s: done\n", names[kind - HB_BEGIN]);
}

int main(void)
{
    static uint8_t bytes[RECORDS * HB_BATCH_RECORD_LEN], answers[RECORDS * HB_ANSWER_LEN];
    hb_builder batch = {bytes, sizeof bytes, 0, 0, 0, 0};

    if (hb_make(hall, sizeof hall, desk, sizeof desk, KEY_ROOMS, VERSION_ROOMS, DESKS) != HB_OK)
        return 1;
    if (hb_commit(hall, sizeof hall, desk, sizeof desk, plan("A1", "loop"), NULL, 0).refusal != HB_OK)
        return 1;
    hb_who anna = hb_started(plan("A2", "direct")); /* both went home with their plans open */
    hb_who bram = hb_started(plan("B7", "direct"));

    hb_who night = hb_add_begin(&batch);
    hb_add_read(&batch, night, TEXT("A1"));
    hb_add_put(&batch, night, TEXT("A1"), TEXT("standby"));
    hb_add_put(&batch, night, TEXT("A2"), TEXT("standby"));
    hb_add_put(&batch, night, TEXT("row B"), TEXT("standby"));
    hb_add_commit(&batch, night);
    hb_add_commit(&batch, anna);
    hb_add_abort(&batch, bram);
    hb_who check = hb_add_begin(&batch);
    hb_add_read(&batch, check, TEXT("A2"));
    hb_add_read(&batch, check, TEXT("B7"));
    hb_add_commit(&batch, check);
    hb_add_sweep(&batch, UINT64_MAX);

    if (batch.full)
        return 1;
    hb_batched done = hb_batch(hall, sizeof hall, desk, sizeof desk, bytes, batch.len, answers, sizeof answers);
    if (done.refusal != HB_OK) {
        printf("the batch: refused, %s\n", hb_refusal_text(done.refusal));
        return 1;
    }
    for (hb_answer a = hb_first_answer(bytes, batch.len, answers); a.left > 0; a = hb_next_answer(a))
        tell(a);
    return 0;
}
