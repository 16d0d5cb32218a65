/* How much stack each call takes: it runs on a thread that first fills the free part of its stack with one byte, and what has
   changed is counted. Linked so that symbols are bound at the start: else the first call has the stack of that counted too.
   cc -O1 -Wl,-z,now -I include -o target/stack compare/stack.c target/staticlib/liblumbryth.a -lpthread && target/stack TRACE */
#define _GNU_SOURCE
#include <pthread.h>
#include <stdint.h>
#include <stdio.h>
#include <stdlib.h>
#include <string.h>

#include "lumbryth.h"

enum { FILE_MOST = 1 << 20, OUT = 1 << 24, STACK = 1 << 20, FILL = 0xA5 };

static uint8_t *file, *work, *spans, *plan, *names;
static size_t file_len, spans_len, names_len, wire_len;
static uint64_t values[LUMBRYTH_GAPS];
/* Any channel, tolerant, what the file is, and whether the FCS is checked. */
static uint64_t options[4] = {256, 1, 0, 0};

static void import_trace(void) {
    if (lumbryth_import_with(file, file_len, work, 8 * file_len, spans, OUT, options, 3, values, LUMBRYTH_VALUES) == 0) spans_len = values[4];
}
static void import_checked(void) {
    options[3] = 1;
    lumbryth_import_with(file, file_len, work, 8 * file_len, plan, OUT, options, 4, values, LUMBRYTH_VALUES);
}
static void tell_sizes(void) { lumbryth_sizes_with(file, file_len, work, 8 * file_len, options, 3, values, LUMBRYTH_SIZES); }
static void list_link(void) { lumbryth_one_link_with(file, file_len, work, 8 * file_len, plan, OUT, 0, 6, 18, options, 3, values, LUMBRYTH_LINK_LIST); }
static void find_gaps(void) { lumbryth_gaps_with(file, file_len, work, 8 * file_len, options, 3, values, LUMBRYTH_GAPS); }
static void make_plan(void) { lumbryth_plan(spans, spans_len, spans, 0, plan, OUT, values, 5); }
static void order_names(void) { lumbryth_capture_order(names, names_len, plan, OUT, values, 5); }
static void pack_frame(void) {
    if (lumbryth_pack(12, 1, file, file_len < 32760 ? file_len : 32760, plan, OUT, values, 5) == 0) wire_len = values[0];
}
static void unpack_frame(void) { lumbryth_unpack(plan, wire_len, spans, OUT, values, 5); }
static void name_frame(void) { lumbryth_fixture_name(1, 1, 1, plan, wire_len, spans, OUT, values, 5); }
static void ask_name(void) { lumbryth_is_command_name((const uint8_t *)"SYSTEM_NTFY_EXTENDED_PARAM", 26); }

static const struct { const char *name; void (*call)(void); } calls[] = {
    {"import", import_trace}, {"import, FCS checked", import_checked}, {"sizes", tell_sizes}, {"one link", list_link}, {"gaps", find_gaps}, {"plan", make_plan}, {"order", order_names},
    {"pack", pack_frame}, {"unpack", unpack_frame}, {"fixture_name", name_frame}, {"is_command_name", ask_name},
};

static uint8_t *stack, *top;

/* Fills the stack up to its own frame. */
static void *run(void *call) {
    volatile uint8_t here = 0;
    top = (uint8_t *)&here - 256;
    for (volatile uint8_t *at = stack; at < top; at++) *at = FILL;
    (*(void (**)(void))call)();
    return NULL;
}

/* A list of names with counters in no order. */
static void make_names(void) {
    for (int i = 0; i < 3000; i++) {
        int len = sprintf((char *)names + names_len + 6, "mdr-packet-%d-%06d-rx.bin", i, i * 7919 % 3000);
        uint8_t head[6] = {(uint8_t)len, 0, 0, 0, 3, 0};
        memcpy(names + names_len, head, 6);
        names_len += 6 + (size_t)len;
    }
}

static size_t touched(void (*call)(void)) {
    pthread_attr_t attr;
    pthread_t thread;
    uint8_t *at = stack;
    if (pthread_attr_init(&attr) || pthread_attr_setstack(&attr, stack, STACK) || pthread_create(&thread, &attr, run, &call)) exit(2);
    pthread_join(thread, NULL);
    while (at < top && *at == FILL) at++;
    return (size_t)(top - at) + 256;
}

int main(int count, char **args) {
    FILE *trace = count == 2 ? fopen(args[1], "rb") : NULL;
    if (!trace) return fprintf(stderr, "usage: stack TRACE\n"), 2;
    file = malloc(FILE_MOST);
    work = malloc(8 * (size_t)FILE_MOST);
    spans = malloc(OUT);
    plan = malloc(OUT);
    names = malloc(FILE_MOST);
    stack = aligned_alloc(4096, STACK);
    file_len = fread(file, 1, FILE_MOST, trace);
    options[2] = file_len > 0 && file[0] != 'b';
    make_names();
    for (size_t i = 0; i < sizeof calls / sizeof *calls; i++) printf("%s: %zu bytes\n", calls[i].name, touched(calls[i].call));
    return 0;
}
