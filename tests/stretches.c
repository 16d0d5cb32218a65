/*
 * Imports a trace tolerantly and prints the stretches that hold bytes at its end, with
 * `way` taken apart and put together again. With a second word, `pcap`, the trace is asked
 * for as pcap. A btsnoop file is imported by both calls, which answer the same, also where
 * the list of options does not say the container. Then it is imported with the FCS checked.
 * The bytes in spans are held to the bytes written, and those left to the stretches. Of a
 * caller that lends room for fewer values, the others stay as they were, and so they do where
 * a refusal carries fewer.
 *
 *     stretches TRACE [pcap]
 */
#include <inttypes.h>
#include <stdio.h>
#include <string.h>

#include "lumbryth.h"

static uint8_t file[LUMBRYTH_FILE_MAX];
static uint8_t work[LUMBRYTH_WORK_FACTOR * LUMBRYTH_FILE_MAX];
static uint8_t out[LUMBRYTH_FILE_MAX];
static struct lumbryth_stretch stretches[LUMBRYTH_FILE_MAX / 24];

#define PLACES (sizeof stretches / sizeof *stretches)

/* Imports by options, the first so many of them. */
static uint32_t import_with(size_t len, uint64_t container, uint64_t check_fcs, size_t options_len, uint64_t *values)
{
    struct lumbryth_options options = {LUMBRYTH_ANY_CHANNEL, 1, LUMBRYTH_BTSNOOP, 0};
    options.container = container;
    options.check_fcs = check_fcs;
    return lumbryth_import_stretches_with(file, len, work, sizeof work, stretches, PLACES, out, sizeof out,
        (const uint64_t *)&options, options_len, values, LUMBRYTH_VALUES);
}

/* Whether both calls with options, with the FCS checked and with room for the first so many
 * values, store those and leave the others. */
static int stores(size_t len, uint64_t container, const uint64_t *values, size_t values_len)
{
    const struct lumbryth_options options = {LUMBRYTH_ANY_CHANNEL, 1, container, 1};
    uint64_t first[LUMBRYTH_VALUES], second[LUMBRYTH_VALUES];
    size_t i;
    for (i = 0; i < LUMBRYTH_VALUES; i++)
        first[i] = second[i] = 77;
    if (lumbryth_import_with(file, len, work, sizeof work, out, sizeof out,
            (const uint64_t *)&options, LUMBRYTH_OPTIONS, first, values_len) != LUMBRYTH_OK)
        return 0;
    if (lumbryth_import_stretches_with(file, len, work, sizeof work, stretches, PLACES, out, sizeof out,
            (const uint64_t *)&options, LUMBRYTH_OPTIONS, second, values_len) != LUMBRYTH_OK)
        return 0;
    for (i = 0; i < LUMBRYTH_VALUES; i++) {
        if (first[i] != (i < values_len ? values[i] : 77) || first[i] != second[i])
            return 0;
    }
    return 1;
}

/* Imports by a channel, with so much output. */
static uint32_t import_on(size_t len, uint64_t container, uint64_t channel, size_t out_len, uint64_t *values)
{
    struct lumbryth_options options = {LUMBRYTH_ANY_CHANNEL, 1, LUMBRYTH_BTSNOOP, 0};
    options.channel = channel;
    options.container = container;
    return lumbryth_import_with(file, len, work, sizeof work, out, out_len,
        (const uint64_t *)&options, LUMBRYTH_OPTIONS, values, LUMBRYTH_VALUES);
}

/* Whether a refusal stores what it carries and no more: 6 nothing, 7 the length needed. The
 * example traces have their frames on channel 9, and none on 31. */
static int carries(size_t len, uint64_t container, uint64_t needed)
{
    uint64_t values[LUMBRYTH_VALUES];
    size_t i;
    for (i = 0; i < LUMBRYTH_VALUES; i++)
        values[i] = 77;
    if (import_on(len, container, 31, sizeof out, values) != LUMBRYTH_NO_STREAM || values[0] != 77)
        return 0;
    if (import_on(len, container, 9, (size_t)needed - 1, values) != LUMBRYTH_OUT_SHORT || values[0] != needed)
        return 0;
    for (i = 1; i < LUMBRYTH_VALUES; i++) {
        if (values[i] != 77)
            return 0;
    }
    return 1;
}

/* Whether what an import says of bytes fits the list that it wrote, and the stretches. */
static int fits(const struct lumbryth_imported *answer)
{
    uint64_t held = 0, i;
    for (i = 0; i < answer->unfinished; i++) {
        if (stretches[i].held == 0)
            return 0;
        held += stretches[i].held;
    }
    return answer->bytes == answer->in_spans + LUMBRYTH_SPAN_HEADER * answer->frames && answer->left == held;
}

static void print_bytes(const struct lumbryth_imported *answer)
{
    printf("in spans %" PRIu64 ", dropped %" PRIu64 ", cleared %" PRIu64 ", left %" PRIu64 "\n",
        answer->in_spans, answer->dropped, answer->cleared, answer->left);
}

int main(int argc, char **argv)
{
    static struct lumbryth_stretch before[PLACES];
    uint64_t values[LUMBRYTH_VALUES], again[LUMBRYTH_VALUES], i;
    uint64_t container = LUMBRYTH_BTSNOOP;
    struct lumbryth_imported answer, checked;
    uint32_t refusal;
    size_t len, options_len;
    int pcap = argc == 3 && strcmp(argv[2], "pcap") == 0;
    FILE *f = argc == 2 || pcap ? fopen(argv[1], "rb") : NULL;
    if (f == NULL)
        return 2;
    len = fread(file, 1, sizeof file, f);
    fclose(f);
    if (pcap) {
        container = LUMBRYTH_PCAP;
        /* As btsnoop it is refused. */
        if (import_with(len, LUMBRYTH_BTSNOOP, 0, LUMBRYTH_OPTIONS, again) != LUMBRYTH_NOT_BTSNOOP)
            return 1;
        refusal = import_with(len, LUMBRYTH_PCAP, 0, LUMBRYTH_OPTIONS, values);
    } else {
        refusal = lumbryth_import_stretches(file, len, work, sizeof work, stretches, PLACES, out, sizeof out,
            LUMBRYTH_ANY_CHANNEL, 1, values, LUMBRYTH_VALUES);
        memcpy(before, stretches, sizeof before);
        for (options_len = 2; options_len <= LUMBRYTH_OPTIONS; options_len++) {
            memset(stretches, 0, sizeof stretches);
            if (import_with(len, LUMBRYTH_BTSNOOP, 0, options_len, again) != refusal
                || memcmp(values, again, sizeof values) != 0 || memcmp(before, stretches, sizeof before) != 0)
                return 1;
        }
        if (import_with(len, LUMBRYTH_PCAP, 0, LUMBRYTH_OPTIONS, again) != LUMBRYTH_NOT_PCAP)
            return 1;
    }
    if (refusal != LUMBRYTH_OK)
        return 1;
    memcpy(&answer, values, sizeof answer);
    if (!fits(&answer) || !carries(len, container, answer.bytes))
        return 1;
    printf("unfinished %" PRIu64 "\n", answer.unfinished);
    for (i = 0; i < answer.unfinished; i++) {
        struct lumbryth_stretch s = stretches[i];
        uint32_t adapter = LUMBRYTH_WAY_ADAPTER(s.way), handle = LUMBRYTH_WAY_HANDLE(s.way);
        if (s.way != 2 * (4096 * adapter + handle) + LUMBRYTH_WAY_RX(s.way))
            return 1;
        printf("adapter %" PRIu32 ", handle %" PRIu32 ", %s, CID %" PRIu32 ", DLCI %" PRIu32
            ", sessions %" PRIu32 ", links %" PRIu32 ", held %" PRIu32 "\n",
            adapter, handle, LUMBRYTH_WAY_RX(s.way) ? "rx" : "tx", s.cid, s.dlci, s.sessions, s.links, s.held);
    }

    print_bytes(&answer);

    /* Not checked, nothing is counted; a list that does not say it is not checked either. */
    if (answer.wrong_fcs != 0 || import_with(len, container, 1, LUMBRYTH_OPTIONS - 1, again) != LUMBRYTH_OK
        || memcmp(values, again, sizeof values) != 0)
        return 1;
    /* Any number but 0 checks. */
    if (import_with(len, container, 1, LUMBRYTH_OPTIONS, (uint64_t *)&checked) != LUMBRYTH_OK
        || import_with(len, container, UINT64_MAX - 1, LUMBRYTH_OPTIONS, again) != LUMBRYTH_OK
        || memcmp(&checked, again, sizeof checked) != 0 || sizeof checked != sizeof again || !fits(&checked))
        return 1;
    for (i = 0; i <= LUMBRYTH_VALUES; i++) {
        if (!stores(len, container, again, (size_t)i))
            return 1;
    }
    printf("FCS checked: frames %" PRIu64 ", unfinished %" PRIu64 ", wrong FCS %" PRIu64 "\n",
        checked.frames, checked.unfinished, checked.wrong_fcs);
    print_bytes(&checked);
    return 0;
}
