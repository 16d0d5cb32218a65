/*
 * Tells how many spans each link and DLCI of a trace has, how many of its buffers are
 * unfinished and how long its list is, where one of them is not 0. With a second word,
 * `pcap`, the trace is asked for as pcap. A trace that is cut is looked at up to there.
 *
 * Looked at are all DLCIs of some links, of which three are in no trace: their lists are
 * empty. The lists of the DLCI that an import by the strict rule takes are held to its list,
 * which has to be theirs merged, and its numbers to their sums. Each list is asked for with
 * outputs that are too short, one that is just enough and one that is longer. Of each
 * beginning of the trace, what is refused is held to lumbryth_gaps_with, which refuses by 1
 * to 5 alone; a handle or DLCI that there cannot be is refused after that, with any output.
 * Each time it is looked at that no more is written than is told, and nothing after a
 * refusal. Of a caller that lends room for fewer values, the others stay as they were; no
 * option counts but the container; and work stays as it was after 1 and 2.
 *
 *     one_link TRACE [pcap]
 */
#include <inttypes.h>
#include <stdio.h>
#include <string.h>

#include "lumbryth.h"

static uint8_t file[LUMBRYTH_FILE_MAX + 1];
static uint8_t work[LUMBRYTH_WORK_FACTOR * sizeof file];
static uint8_t out[LUMBRYTH_FILE_MAX], list[LUMBRYTH_FILE_MAX];

/* No call stores this number, or writes this byte over all that is looked at. */
#define NONE 7777777
#define OLD 0xA5

/* What is returned where a check fails: its line is told, and that of each call up to main. */
#define WRONG(value) (fprintf(stderr, "one_link: wrong, line %d\n", __LINE__), (value))

struct asked {
    uint16_t index;
    uint16_t handle;
    uint8_t dlci;
};

static const struct asked links[] = {{0, 6, 0}, {1, 6, 0}, {0, 7, 0}, {65535, 6, 0}, {65535, 4095, 0}};
#define LINKS (sizeof links / sizeof *links)

static int is(const uint8_t *bytes, size_t len, uint8_t byte)
{
    size_t i;
    for (i = 0; i < len; i++) {
        if (bytes[i] != byte)
            return 0;
    }
    return 1;
}

static void clear(uint64_t *values)
{
    size_t i;
    for (i = 0; i < LUMBRYTH_VALUES; i++)
        values[i] = NONE;
}

static int untouched(const uint64_t *values, size_t from)
{
    size_t i;
    for (i = from; i < LUMBRYTH_VALUES; i++) {
        if (values[i] != NONE)
            return 0;
    }
    return 1;
}

/* The call, with so much work and output. The output is old before. */
static uint32_t ask(size_t len, size_t work_len, size_t out_len, struct asked asked,
    const struct lumbryth_options *options, uint64_t *values)
{
    clear(values);
    memset(out, OLD, out_len + 16);
    return lumbryth_one_link_with(file, len, work, work_len, out, out_len,
        asked.index, asked.handle, asked.dlci,
        (const uint64_t *)options, LUMBRYTH_OPTIONS, values, LUMBRYTH_VALUES);
}

/* Whether the call refuses so, with so many values, and leaves the output. */
static int refuses(uint32_t refusal, size_t carries, size_t len, size_t out_len, struct asked asked,
    const struct lumbryth_options *options, uint64_t *values)
{
    return ask(len, LUMBRYTH_WORK_FACTOR * len, out_len, asked, options, values) == refusal
        && untouched(values, carries) && is(out, out_len + 16, OLD);
}

/* Whether the list of a link and DLCI is items of the kinds of spans, from 3E through 3C, as
 * many and as long as is told, and is given alike with just enough output, and refused with
 * less by 7, which carries its length. What is told is stored, and the list. */
static int listed(size_t len, struct asked asked, const struct lumbryth_options *options,
    struct lumbryth_link_list *found)
{
    uint64_t values[LUMBRYTH_VALUES], again[LUMBRYTH_VALUES];
    size_t work_len = LUMBRYTH_WORK_FACTOR * len, n, at, spans = 0;
    if (ask(len, work_len, sizeof out - 16, asked, options, values) != LUMBRYTH_OK
        || !untouched(values, LUMBRYTH_LINK_LIST))
        return WRONG(0);
    memcpy(found, values, sizeof *found);
    if (found->bytes > sizeof out - 32 || !is(out + found->bytes, 16, OLD))
        return WRONG(0);
    memcpy(list, out, (size_t)found->bytes);
    for (at = 0; at < found->bytes; spans++) {
        uint32_t body = list[at] | list[at + 1] << 8 | list[at + 2] << 16 | (uint32_t)list[at + 3] << 24;
        uint32_t kind = list[at + 4] | list[at + 5] << 8;
        if ((kind != LUMBRYTH_SPAN_RX && kind != LUMBRYTH_SPAN_TX) || body < 10
            || list[at + LUMBRYTH_SPAN_HEADER] != 0x3E || list[at + LUMBRYTH_ITEM_HEADER + body - 1] != 0x3C)
            return WRONG(0);
        at += LUMBRYTH_ITEM_HEADER + body;
    }
    if (at != found->bytes || spans != found->spans)
        return WRONG(0);
    for (n = found->bytes; n-- > 0; n = n > 30 ? n - 29 : n) {
        if (!refuses(LUMBRYTH_OUT_SHORT, 1, len, n, asked, options, again) || again[0] != found->bytes)
            return WRONG(0);
    }
    return ask(len, work_len, (size_t)found->bytes, asked, options, again) == LUMBRYTH_OK
        && memcmp(values, again, sizeof values) == 0 && memcmp(list, out, (size_t)found->bytes) == 0
        && is(out + found->bytes, 16, OLD);
}

/* Whether a beginning of the trace is refused as the signs are, with the same values, or has a
 * list; and whether a wrong handle or DLCI is refused after that, before 7. */
static int begins(size_t len, const struct lumbryth_options *options)
{
    static const struct asked wrong[] = {{0, 4096, 18}, {0, 65535, 18}, {65535, 4096, 0}, {0, 6, 0}, {0, 6, 64}, {1, 6, 255}};
    const struct asked asked = {0, 6, 18};
    struct lumbryth_options strict = *options;
    struct lumbryth_link_list found;
    uint64_t values[LUMBRYTH_VALUES], again[LUMBRYTH_VALUES], signs[LUMBRYTH_GAPS];
    uint32_t refusal;
    size_t i, n;
    strict.tolerant = 0;
    for (i = 0; i < LUMBRYTH_GAPS; i++)
        signs[i] = NONE;
    refusal = lumbryth_gaps_with(file, len, work, LUMBRYTH_WORK_FACTOR * len,
        (const uint64_t *)&strict, LUMBRYTH_OPTIONS, signs, LUMBRYTH_GAPS);
    if (refusal == LUMBRYTH_OK && !listed(len, asked, options, &found))
        return WRONG(0);
    for (i = 0; i < sizeof wrong / sizeof *wrong; i++) {
        for (n = 0; n <= 1000; n += 500) {
            if (refusal == LUMBRYTH_OK) {
                if (!refuses(LUMBRYTH_NO_LINK, 0, len, n, wrong[i], options, values))
                    return WRONG(0);
            } else if (!refuses(refusal, signs[0] == NONE ? 0 : 1, len, n, wrong[i], options, values)
                || !refuses(refusal, signs[0] == NONE ? 0 : 1, len, n, asked, options, again)
                || values[0] != signs[0] || again[0] != signs[0])
                return WRONG(0);
        }
    }
    return 1;
}

/* Whether the first so many values are stored and the others are not, options that are not
 * in the list have their defaults, and none counts but the container. */
static int stores(size_t len, struct asked asked, const struct lumbryth_options *options)
{
    struct lumbryth_options other;
    uint64_t values[LUMBRYTH_VALUES], again[LUMBRYTH_VALUES];
    size_t room, i, n;
    if (ask(len, LUMBRYTH_WORK_FACTOR * len, sizeof out - 16, asked, options, values) != LUMBRYTH_OK)
        return WRONG(0);
    n = (size_t)values[2];
    memcpy(list, out, n);
    for (room = 0; room <= LUMBRYTH_VALUES; room++) {
        clear(again);
        if (lumbryth_one_link_with(file, len, work, sizeof work, out, n, asked.index, asked.handle, asked.dlci,
                (const uint64_t *)options, options->container ? 3 : 0, again, room) != LUMBRYTH_OK)
            return WRONG(0);
        for (i = 0; i < LUMBRYTH_VALUES; i++) {
            if (again[i] != (i < room ? values[i] : NONE))
                return WRONG(0);
        }
    }
    for (i = 0; i < 8; i++) {
        other.channel = i % 2 ? 1 : 9;
        other.tolerant = i / 2 % 2;
        other.container = options->container ? 2 : 0;
        other.check_fcs = i / 4;
        if (ask(len, sizeof work, n, asked, &other, again) != LUMBRYTH_OK
            || memcmp(values, again, sizeof values) != 0 || memcmp(list, out, n) != 0)
            return WRONG(0);
    }
    return 1;
}

/* Whether work of one byte too few is refused with 2, and a file that is too long with 1, also
 * where the handle and the DLCI are wrong; and work stays as it was. */
static int keeps(size_t len, const struct lumbryth_options *options)
{
    static const struct asked any[] = {{0, 6, 18}, {0, 4096, 0}};
    uint64_t values[LUMBRYTH_VALUES];
    size_t work_len = LUMBRYTH_WORK_FACTOR * len, i;
    memset(work, OLD, sizeof work);
    for (i = 0; i < 2; i++) {
        if (ask(len, work_len - 1, 1000, any[i], options, values) != LUMBRYTH_WORK_SHORT
            || !untouched(values, 0) || !is(out, 1000, OLD)
            || ask(len, 0, 0, any[i], options, values) != LUMBRYTH_WORK_SHORT
            || ask(sizeof file, sizeof work, 1000, any[i], options, values) != LUMBRYTH_FILE_LONG
            || !untouched(values, 0) || !is(out, 1000, OLD)
            || ask(sizeof file, 0, 0, any[i], options, values) != LUMBRYTH_FILE_LONG)
            return WRONG(0);
    }
    return is(work, sizeof work, OLD);
}

/* Whether the import has what the lists of the links have, on the DLCI that it takes. Its list
 * is walked: each span has to be the next one of a link. */
static int merges(size_t len, const struct lumbryth_options *options)
{
    static uint8_t imported[sizeof out], lists[LINKS][20000];
    struct lumbryth_options strict = *options;
    struct lumbryth_imported all;
    struct lumbryth_link_list found[LINKS];
    uint64_t values[LUMBRYTH_VALUES];
    size_t at, i, next[LINKS] = {0};
    uint64_t spans = 0, unfinished = 0, bytes = 0;
    strict.tolerant = 0;
    if (lumbryth_import_with(file, len, work, sizeof work, imported, sizeof imported,
            (const uint64_t *)&strict, LUMBRYTH_OPTIONS, values, LUMBRYTH_VALUES) != LUMBRYTH_OK)
        return WRONG(0);
    memcpy(&all, values, sizeof all);
    for (i = 0; i < LINKS; i++) {
        struct asked asked = links[i];
        asked.dlci = (uint8_t)all.dlci;
        if (!listed(len, asked, options, &found[i]) || found[i].bytes > sizeof lists[i])
            return WRONG(0);
        memcpy(lists[i], list, (size_t)found[i].bytes);
        spans += found[i].spans;
        unfinished += found[i].unfinished;
        bytes += found[i].bytes;
    }
    if (spans != all.frames || unfinished != all.unfinished || bytes != all.bytes)
        return WRONG(0);
    for (at = 0; at < all.bytes;) {
        size_t n = LUMBRYTH_ITEM_HEADER
            + (imported[at] | imported[at + 1] << 8 | imported[at + 2] << 16 | (size_t)imported[at + 3] << 24);
        for (i = 0; i < LINKS; i++) {
            if (found[i].bytes - next[i] >= n && memcmp(imported + at, lists[i] + next[i], n) == 0)
                break;
        }
        if (i == LINKS)
            return WRONG(0);
        next[i] += n;
        at += n;
    }
    return 1;
}

int main(int argc, char **argv)
{
    struct lumbryth_options options = {LUMBRYTH_ANY_CHANNEL, 0, LUMBRYTH_BTSNOOP, 0};
    const struct asked asked = {0, 6, 18};
    struct lumbryth_link_list found;
    uint64_t values[LUMBRYTH_VALUES];
    size_t len, n, i;
    int pcap = argc == 3 && strcmp(argv[2], "pcap") == 0;
    FILE *f = argc == 2 || pcap ? fopen(argv[1], "rb") : NULL;
    if (f == NULL)
        return 2;
    len = fread(file, 1, LUMBRYTH_FILE_MAX, f);
    fclose(f);

    /* As the other container it is refused, before the handle is looked at. */
    options.container = pcap ? LUMBRYTH_BTSNOOP : LUMBRYTH_PCAP;
    if (!refuses(pcap ? LUMBRYTH_NOT_BTSNOOP : LUMBRYTH_NOT_PCAP, 0, len, 0, asked, &options, values))
        return WRONG(1);
    options.container = pcap ? LUMBRYTH_PCAP : LUMBRYTH_BTSNOOP;
    for (n = 0; n <= len; n++) {
        if (!begins(n, &options))
            return WRONG(1);
    }
    /* A cut trace is refused; what comes before that is whole. */
    if (ask(len, LUMBRYTH_WORK_FACTOR * len, 0, asked, &options, values) == LUMBRYTH_TRUNCATED) {
        printf("cut\n");
        len = (size_t)values[0];
    }
    if (!merges(len, &options) || !stores(len, asked, &options) || !keeps(len, &options))
        return WRONG(1);
    for (i = 0; i < LINKS; i++) {
        struct asked each = links[i];
        for (each.dlci = 1; each.dlci <= 63; each.dlci++) {
            if (!listed(len, each, &options, &found))
                return WRONG(1);
            if (found.spans + found.unfinished + found.bytes > 0)
                printf("link %d:%d, DLCI %d: spans %" PRIu64 ", unfinished %" PRIu64 ", bytes %" PRIu64 "\n",
                    each.index, each.handle, each.dlci, found.spans, found.unfinished, found.bytes);
        }
    }
    return 0;
}
