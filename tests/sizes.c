/*
 * Tells the sizes of a trace by the tolerant rule, with the FCS not checked and then checked.
 * With a second word, `pcap`, the trace is asked for as pcap.
 *
 * Of the trace and of each of its beginnings, by both rules, on any channel and on one, the
 * sizes are held to the import: with as much output as is needed, or more, it answers, and
 * with one byte less it is refused with 7, which carries the length; and where the sizes are
 * refused, it is refused with the same number and values. Records are held to
 * lumbryth_records_with. Of a caller that lends room for fewer values, the others stay as they
 * were, and so they do where a refusal carries fewer. Work that is too short stays as it was.
 *
 *     sizes TRACE [pcap]
 */
#include <inttypes.h>
#include <stdio.h>
#include <string.h>

#include "lumbryth.h"

static uint8_t file[LUMBRYTH_FILE_MAX];
static uint8_t work[LUMBRYTH_WORK_FACTOR * LUMBRYTH_FILE_MAX];
static uint8_t out[LUMBRYTH_FILE_MAX];

/* No call stores this. */
#define NONE 7777777

static void clear(uint64_t *values)
{
    size_t i;
    for (i = 0; i < LUMBRYTH_VALUES; i++)
        values[i] = NONE;
}

/* The sizes, with exactly as much work as is needed. */
static uint32_t sizes_of(size_t len, const struct lumbryth_options *options, uint64_t *values)
{
    clear(values);
    return lumbryth_sizes_with(file, len, work, LUMBRYTH_WORK_FACTOR * len,
        (const uint64_t *)options, LUMBRYTH_OPTIONS, values, LUMBRYTH_VALUES);
}

/* The import, with so much output. */
static uint32_t import(size_t len, const struct lumbryth_options *options, size_t out_len, uint64_t *values)
{
    clear(values);
    return lumbryth_import_with(file, len, work, LUMBRYTH_WORK_FACTOR * len, out, out_len,
        (const uint64_t *)options, LUMBRYTH_OPTIONS, values, LUMBRYTH_VALUES);
}

/* Whether the sizes of the first so many bytes are what the import needs, or both are
 * refused, and alike. */
static int fits(size_t len, const struct lumbryth_options *options)
{
    uint64_t values[LUMBRYTH_VALUES], again[LUMBRYTH_VALUES], records[2];
    uint32_t refusal = sizes_of(len, options, values);
    size_t needed = (size_t)values[0], i;
    if (refusal != LUMBRYTH_OK) {
        if (import(len, options, 0, again) != refusal || memcmp(values, again, sizeof values) != 0)
            return 0;
        return import(len, options, sizeof out, again) == refusal && memcmp(values, again, sizeof values) == 0;
    }
    for (i = LUMBRYTH_SIZES; i < LUMBRYTH_VALUES; i++) {
        if (values[i] != NONE)
            return 0;
    }
    if (needed < 23 || import(len, options, needed - 1, again) != LUMBRYTH_OUT_SHORT
        || again[0] != needed || again[1] != NONE || import(len, options, 0, again) != LUMBRYTH_OUT_SHORT)
        return 0;
    if (import(len, options, needed, again) != LUMBRYTH_OK || again[4] != needed
        || import(len, options, needed + 1, again) != LUMBRYTH_OK || again[4] != needed)
        return 0;
    return lumbryth_records_with(file, len, records, 0, (const uint64_t *)options, LUMBRYTH_OPTIONS, records, 2)
        == LUMBRYTH_OK && values[1] == records[0];
}

/* Whether the channel changes the length alone, and the check of the FCS that and the pieces. */
static int depends(size_t len, const struct lumbryth_options *options)
{
    struct lumbryth_options other = *options;
    uint64_t values[LUMBRYTH_VALUES], again[LUMBRYTH_VALUES];
    if (sizes_of(len, options, values) != LUMBRYTH_OK)
        return 0;
    other.channel = 9;
    if (sizes_of(len, &other, again) != LUMBRYTH_OK || memcmp(values + 1, again + 1, 3 * sizeof *values) != 0)
        return 0;
    other.check_fcs = 1 - options->check_fcs;
    return sizes_of(len, &other, again) == LUMBRYTH_OK && memcmp(values + 1, again + 1, 2 * sizeof *values) == 0;
}

/* Whether the first so many values are stored and the others are not, and the options that are
 * not in the list have their defaults. */
static int stores(size_t len, const struct lumbryth_options *options)
{
    const struct lumbryth_options plain = {LUMBRYTH_ANY_CHANNEL, options->tolerant, options->container, 0};
    uint64_t values[LUMBRYTH_VALUES], first[LUMBRYTH_VALUES];
    size_t room, i;
    if (sizes_of(len, &plain, values) != LUMBRYTH_OK)
        return 0;
    for (room = 0; room <= LUMBRYTH_VALUES; room++) {
        clear(first);
        if (lumbryth_sizes_with(file, len, work, sizeof work, (const uint64_t *)&plain, 3, first, room)
            != LUMBRYTH_OK)
            return 0;
        for (i = 0; i < LUMBRYTH_VALUES; i++) {
            if (first[i] != (i < room ? values[i] : NONE))
                return 0;
        }
    }
    return 1;
}

/* Whether work of one byte too few is refused with 2 and stays as it was. */
static int keeps(size_t len, const struct lumbryth_options *options)
{
    size_t work_len = LUMBRYTH_WORK_FACTOR * len, i;
    uint64_t values[LUMBRYTH_VALUES];
    clear(values);
    memset(work, 0xA5, work_len);
    if (lumbryth_sizes_with(file, len, work, work_len - 1, (const uint64_t *)options, LUMBRYTH_OPTIONS,
            values, LUMBRYTH_VALUES) != LUMBRYTH_WORK_SHORT || values[0] != NONE)
        return 0;
    for (i = 0; i < work_len; i++) {
        if (work[i] != 0xA5)
            return 0;
    }
    return 1;
}

static void print(const uint64_t *values)
{
    struct lumbryth_sizes sizes;
    memcpy(&sizes, values, sizeof sizes);
    printf("needed %" PRIu64 ", records %" PRIu64 ", PDUs %" PRIu64 ", pieces %" PRIu64 "\n",
        sizes.needed, sizes.records, sizes.pdus, sizes.pieces);
}

int main(int argc, char **argv)
{
    static const uint64_t channels[] = {LUMBRYTH_ANY_CHANNEL, 9, 31};
    struct lumbryth_options options = {LUMBRYTH_ANY_CHANNEL, 1, LUMBRYTH_BTSNOOP, 0};
    uint64_t values[LUMBRYTH_VALUES];
    size_t len, n, i;
    int pcap = argc == 3 && strcmp(argv[2], "pcap") == 0;
    FILE *f = argc == 2 || pcap ? fopen(argv[1], "rb") : NULL;
    if (f == NULL)
        return 2;
    len = fread(file, 1, sizeof file, f);
    fclose(f);

    /* As the other container it is refused. */
    options.container = pcap ? LUMBRYTH_BTSNOOP : LUMBRYTH_PCAP;
    if (sizes_of(len, &options, values) != (pcap ? LUMBRYTH_NOT_BTSNOOP : LUMBRYTH_NOT_PCAP) || values[0] != NONE)
        return 1;
    options.container = pcap ? LUMBRYTH_PCAP : LUMBRYTH_BTSNOOP;
    for (n = 0; n <= len; n++) {
        for (i = 0; i < 3 * 2 * 2; i++) {
            options.channel = channels[i % 3];
            options.tolerant = i / 3 % 2;
            options.check_fcs = i / 6;
            if (!fits(n, &options))
                return 1;
        }
    }
    options.channel = LUMBRYTH_ANY_CHANNEL;
    options.tolerant = 1;
    for (options.check_fcs = 0; options.check_fcs < 2; options.check_fcs++) {
        if (!depends(len, &options) || !stores(len, &options) || !keeps(len, &options)
            || sizes_of(len, &options, values) != LUMBRYTH_OK)
            return 1;
        printf("%s", options.check_fcs ? "FCS checked: " : "");
        print(values);
    }
    return 0;
}
