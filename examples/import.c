/*
 * Reads a trace, btsnoop or pcap, imports it tolerantly, and prints what was found. With
 * --check-fcs, RFCOMM's UIH frames with a wrong FCS are passed over, and counted.
 * `import.rs` does and prints the same.
 *
 *     cc -I include -o target/import examples/import.c target/staticlib/liblumbryth.a
 *     target/import TRACE [--check-fcs]
 */
#include <inttypes.h>
#include <stdio.h>
#include <stdlib.h>
#include <string.h>

#include "lumbryth.h"

/* Reads at most LUMBRYTH_FILE_MAX + 1 bytes: one more than an import takes, so that a
 * longer file is refused and not cut. Gives how many, or -1. */
static long read_file(const char *path, uint8_t *file)
{
    FILE *f = fopen(path, "rb");
    size_t n;
    int failed;
    if (f == NULL)
        return -1;
    n = fread(file, 1, LUMBRYTH_FILE_MAX + 1, f);
    failed = ferror(f);
    fclose(f);
    return failed ? -1 : (long)n;
}

/* What to ask for a file as. The library guesses nothing, so that a caller says it; this one
 * goes by pcap's four magic numbers, and what begins with none of them is asked for as
 * btsnoop, and refused (3) if it is not. */
static uint64_t container_of(const uint8_t *file, size_t len)
{
    static const uint8_t magic[4][4] = {
        {0xD4, 0xC3, 0xB2, 0xA1}, {0xA1, 0xB2, 0xC3, 0xD4}, /* microseconds */
        {0x4D, 0x3C, 0xB2, 0xA1}, {0xA1, 0xB2, 0x3C, 0x4D}, /* nanoseconds */
    };
    size_t i;
    for (i = 0; i < 4; i++) {
        if (len >= 4 && memcmp(file, magic[i], 4) == 0)
            return LUMBRYTH_PCAP;
    }
    return LUMBRYTH_BTSNOOP;
}

/* A number of so many bytes, lowest first. */
static uint64_t number(const uint8_t *bytes, int count)
{
    uint64_t n = 0;
    while (count-- > 0)
        n = n << 8 | bytes[count];
    return n;
}

/* Prints the spans of a list, each by its name or by why it has none. */
static void print_spans(const uint8_t *list, size_t len)
{
    uint32_t counter = 1;
    size_t at = 0;
    while (at < len) {
        size_t body = (size_t)number(list + at, 4);
        uint8_t way = (uint8_t)number(list + at + 4, 2);
        uint64_t ms = number(list + at + LUMBRYTH_ITEM_HEADER, 8);
        const uint8_t *wire = list + at + LUMBRYTH_SPAN_HEADER;
        size_t wire_len = body - 8;
        uint8_t name[LUMBRYTH_NAME_MAX];
        uint64_t values[LUMBRYTH_VALUES];
        uint32_t refusal = lumbryth_fixture_name(ms, counter, way, wire, wire_len,
            name, sizeof name, values, LUMBRYTH_VALUES);
        if (refusal == LUMBRYTH_OK)
            printf("%.*s\n", (int)values[0], (const char *)name);
        else
            printf("frame %" PRIu32 ", %s, %zu bytes: refused (%" PRIu32 ")\n", counter,
                way == LUMBRYTH_SPAN_RX ? "rx" : "tx", wire_len, refusal);
        counter++;
        at += LUMBRYTH_ITEM_HEADER + body;
    }
}

/* Prints where every information byte of the DLCI went. */
static void print_bytes(const struct lumbryth_imported *answer)
{
    uint64_t taken_in = answer->in_spans + answer->dropped + answer->cleared + answer->left;
    printf("bytes taken in %" PRIu64 ": in spans %" PRIu64 ", dropped %" PRIu64 ", cleared %" PRIu64
        ", left %" PRIu64 "\n", taken_in, answer->in_spans, answer->dropped, answer->cleared, answer->left);
}

int main(int argc, char **argv)
{
    uint8_t *file, *work, *out = NULL;
    struct lumbryth_options options = {LUMBRYTH_ANY_CHANNEL, 1, LUMBRYTH_BTSNOOP, 0};
    struct lumbryth_sizes sizes;
    struct lumbryth_imported answer;
    size_t work_len;
    uint32_t refusal;
    long len;

    options.check_fcs = argc == 3 && strcmp(argv[2], "--check-fcs") == 0;
    if (argc != 2 && !options.check_fcs) {
        fprintf(stderr, "usage: import TRACE [--check-fcs]\n");
        return 2;
    }
    file = malloc(LUMBRYTH_FILE_MAX + 1);
    if (file == NULL)
        return 1;
    len = read_file(argv[1], file);
    if (len < 0) {
        perror(argv[1]);
        free(file);
        return 1;
    }
    work_len = LUMBRYTH_WORK_FACTOR * (size_t)len;
    work = malloc(work_len + 1);
    if (work == NULL) {
        free(file);
        return 1;
    }

    /* The sizes say how much output is needed; an import with so much is not refused with 7. */
    options.container = container_of(file, (size_t)len);
    refusal = lumbryth_sizes_with(file, (size_t)len, work, work_len,
        (const uint64_t *)&options, LUMBRYTH_OPTIONS, (uint64_t *)&sizes, LUMBRYTH_SIZES);
    if (refusal == LUMBRYTH_OK) {
        out = malloc((size_t)sizes.needed);
        refusal = out == NULL ? LUMBRYTH_OUT_SHORT
            : lumbryth_import_with(file, (size_t)len, work, work_len, out, (size_t)sizes.needed,
                (const uint64_t *)&options, LUMBRYTH_OPTIONS, (uint64_t *)&answer, LUMBRYTH_VALUES);
    }
    if (refusal != LUMBRYTH_OK) {
        fprintf(stderr, "%s: refused (%" PRIu32 ")\n", argv[1], refusal);
    } else {
        printf("DLCI %" PRIu64 ", frames %" PRIu64 ", unfinished %" PRIu64 "\n",
            answer.dlci, answer.frames, answer.unfinished);
        print_bytes(&answer);
        if (options.check_fcs)
            printf("UIH frames with a wrong FCS, passed over: %" PRIu64 "\n", answer.wrong_fcs);
        if (answer.tail < (uint64_t)len)
            printf("the file ends inside the record that starts at byte %" PRIu64 "\n", answer.tail);
        print_spans(out, (size_t)answer.bytes);
    }
    free(out);
    free(work);
    free(file);
    return refusal == LUMBRYTH_OK ? 0 : 1;
}
