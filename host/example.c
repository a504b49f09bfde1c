/* Prints an ACL as text and reads the text back, asks the gate for every request record of a day, one by one and in a run on the
 * prepared ACL, serves two keys under that ACL from one cabinet, where they share its counters, and asks the desk for a verdict:
 *     example KM0 ACL REQUESTS BUNDLE BUNDLE_ACL */
#include <stdio.h>
#include <stdlib.h>
#include <string.h>

#include "akubolinfe.h"

typedef struct {
    uint8_t bytes[131072];
    size_t length;
} file;

/* A file that is longer than the buffer is cut, and still longer than any file may be. */
static bool read_file(const char *name, file *into)
{
    FILE *f = fopen(name, "rb");
    if (f == NULL) {
        perror(name);
        return false;
    }
    into->length = fread(into->bytes, 1, sizeof into->bytes, f);
    bool bad = ferror(f) != 0;
    if (bad)
        perror(name);
    fclose(f);
    return !bad;
}

/* The listing of an ACL, and whether it reads back to the same bytes. */
static void print_listing(const file *acl)
{
    static uint8_t text[AKUBOLINFE_LISTING_BYTES], back[AKUBOLINFE_ACL_BYTES];
    akubolinfe_text_reply l = akubolinfe_write_listing(acl->bytes, acl->length, text, sizeof text);
    if (l.refusal) {
        printf("no listing: refused %u\n", (unsigned)l.refusal);
        return;
    }
    fwrite(text, 1, l.length, stdout);
    akubolinfe_text_reply r = akubolinfe_read_listing(text, l.length, back, sizeof back);
    if (r.refusal == 0 && r.length == acl->length && memcmp(back, acl->bytes, acl->length) == 0)
        printf("reads back to the same %llu bytes\n", (unsigned long long)r.length);
    else
        printf("does not read back: refused %u, line %llu\n", (unsigned)r.refusal, (unsigned long long)r.line);
    l = akubolinfe_read_listing((const uint8_t *)"group\nlimit uses 01\n", 20, back, sizeof back);
    printf("a leading zero: refused %u, line %llu\n", (unsigned)l.refusal, (unsigned long long)l.line);
}

/* An answer of the gate. */
static void print_reply(akubolinfe_reply r)
{
    if (r.refusal == 0)
        printf("permit %u\n", (unsigned)r.group);
    else if (r.group == AKUBOLINFE_NO_GROUP)
        printf("refuse %u\n", (unsigned)r.refusal);
    else
        printf("refuse %u %u\n", (unsigned)r.refusal, (unsigned)r.group);
}

static void print_day(akubolinfe_ledger *ledger, const file *km0, const file *acl, const file *requests)
{
    akubolinfe_load_in_place(ledger, 0);
    for (size_t at = 0; AKUBOLINFE_RECORD <= requests->length - at; at += AKUBOLINFE_RECORD) {
        printf("%zu ", at / AKUBOLINFE_RECORD + 1);
        print_reply(akubolinfe_request_in_place(ledger, km0->bytes, km0->length, acl->bytes, acl->length, requests->bytes + at,
                                                AKUBOLINFE_RECORD));
    }
}

/* A number of four bytes, the greatest first. */
static uint32_t four_bytes(const uint8_t *bytes)
{
    return (uint32_t)bytes[0] << 24 | (uint32_t)bytes[1] << 16 | (uint32_t)bytes[2] << 8 | bytes[3];
}

/* The day's requests in one run, without certificates. It leaves the ledger of asking one by one. */
static void print_run(const akubolinfe_ledger *one_by_one, const file *km0, const file *acl, const file *requests)
{
    static uint8_t answers[AKUBOLINFE_PREPARED_RECORDS * AKUBOLINFE_ANSWER_BYTES];
    akubolinfe_preparation p = akubolinfe_prepare(acl->bytes, acl->length);
    akubolinfe_ledger ledger = akubolinfe_fresh();
    akubolinfe_load_in_place(&ledger, 0);
    akubolinfe_run_reply r = akubolinfe_prepared_run_in_place(&ledger, km0->bytes, km0->length, acl->bytes, acl->length, NULL, 0,
                                                              p.form, requests->bytes, requests->length, answers, sizeof answers);
    if (r.refusal) {
        printf("run: refused %u\n", (unsigned)r.refusal);
        return;
    }
    for (size_t k = 0; k < r.count; k++) {
        const uint8_t *answer = answers + k * AKUBOLINFE_ANSWER_BYTES;
        akubolinfe_reply one = {four_bytes(answer), four_bytes(answer + 4)};
        printf("run %zu: ", k + 1);
        print_reply(one);
    }
    printf("the ledger is %s\n", memcmp(&ledger, one_by_one, sizeof ledger) == 0 ? "the same" : "another");
}

/* A request record to the key of a slot. */
static void print_use(akubolinfe_cabinet *cabinet, size_t slot, const file *km0, const file *acl, const uint8_t *request)
{
    printf("key %zu: ", slot);
    print_reply(akubolinfe_cabinet_request_in_place(cabinet, slot, km0->bytes, km0->length, acl->bytes, acl->length, request,
                                                    AKUBOLINFE_RECORD));
}

/* Two keys under the same ACL, each asked for every request record in turn. The counts of the groups are each key's own; a counter
 * that the ACL names is used up by both. */
static void print_keys(const file *km0, const file *acl, const file *requests)
{
    akubolinfe_cabinet cabinet = akubolinfe_cabinet_fresh();
    for (size_t slot = 0; slot < 2; slot++)
        if (akubolinfe_cabinet_load_in_place(&cabinet, slot, 0).refusal)
            return;
    size_t at = 0;
    for (; AKUBOLINFE_RECORD <= requests->length - at; at += AKUBOLINFE_RECORD)
        for (size_t slot = 0; slot < 2; slot++)
            print_use(&cabinet, slot, km0, acl, requests->bytes + at);
    if (at == 0)
        return;
    printf("counter 3 is cleared at %lu\n", (unsigned long)cabinet.counters[3]);
    if (akubolinfe_cabinet_clear_in_place(&cabinet, 3).refusal)
        return;
    const uint8_t *request = requests->bytes + at - AKUBOLINFE_RECORD;
    akubolinfe_cabinet_outcome by_value = akubolinfe_cabinet_request(cabinet, 1, km0->bytes, km0->length, acl->bytes,
                                                                     acl->length, request, AKUBOLINFE_RECORD);
    print_use(&cabinet, 1, km0, acl, request);
    printf("by value the cabinet is %s\n", memcmp(&cabinet, &by_value.cabinet, sizeof cabinet) == 0 ? "the same" : "another");
    print_use(&cabinet, AKUBOLINFE_SLOTS, km0, acl, request);
}

static void print_verdict(const file *bundle, const file *acl)
{
    akubolinfe_verdict v = akubolinfe_desk(bundle->bytes, bundle->length, acl->bytes, acl->length);
    if (akubolinfe_accepted(v))
        printf("accepted: approach %u, protection %u, recoverable %d\n", (unsigned)v.approach, (unsigned)v.protection,
               v.recoverable);
    else if (v.refusal)
        printf("refused %u\n", (unsigned)v.refusal);
    else
        printf("failed step %u\n", (unsigned)v.step);
}

int main(int count, char **names)
{
    static file files[5];
    if (count != 6) {
        fprintf(stderr, "usage: example KM0 ACL REQUESTS BUNDLE BUNDLE_ACL\n");
        return EXIT_FAILURE;
    }
    if (akubolinfe_abi() != AKUBOLINFE_ABI) {
        fprintf(stderr, "example: the library is not that of the header\n");
        return EXIT_FAILURE;
    }
    for (int i = 0; i < 5; i++)
        if (!read_file(names[i + 1], &files[i]))
            return EXIT_FAILURE;
    akubolinfe_ledger ledger = akubolinfe_fresh();
    print_listing(&files[1]);
    print_day(&ledger, &files[0], &files[1], &files[2]);
    print_run(&ledger, &files[0], &files[1], &files[2]);
    print_keys(&files[0], &files[1], &files[2]);
    print_verdict(&files[3], &files[4]);
    return EXIT_SUCCESS;
}
