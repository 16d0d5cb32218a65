/*
 * Lumbryth: the MDR frames that a headset and a phone exchanged, from a recorded
 * Bluetooth trace (a btsnoop or a pcap file).
 *
 * Link with target/staticlib/liblumbryth.a, which `tools/library` makes
 * (x86-64 Linux). `examples/import.c` shows an import from reading the file to
 * printing the frames.
 *
 *
 * How every call works
 *
 * - A slice is a pointer and a length: so many bytes, uint64_t or struct
 *   lumbryth_stretch that can be read there, and written if the pointer is not
 *   const. For a length of 0 nothing is read or written, but pass a pointer that is
 *   not NULL.
 * - The caller owns all memory. Nothing is allocated, freed or kept after the call
 *   returns, and there is no hidden state: any number of threads may call at once,
 *   each with its own buffers.
 * - What is lent to be written (`out`, `work`, `stretches`, `starts`, `values`)
 *   overlaps nothing else that is lent to the same call. What is lent to be read may
 *   overlap.
 * - A call returns 0, or the number of its refusal (below). Only
 *   lumbryth_is_command_name returns a yes or no instead.
 * - At the front of `values` it stores what it answers or, after a refusal, what
 *   the refusal carries: as many as `values_len` has room for. LUMBRYTH_VALUES
 *   places are room for all, but for lumbryth_gaps and lumbryth_gaps_with, which
 *   store LUMBRYTH_GAPS. Places past those stay as they were. Values that are added
 *   later come at the end, so a caller that lends room for fewer goes on as before.
 * - What it writes goes to the front of `out`; the bytes of `out` behind that stay
 *   as they were, and after a refusal all of them do.
 * - An output that is too short is refusal 7 (LUMBRYTH_OUT_SHORT), which carries the
 *   length needed. So a call with `out_len` 0 asks for the length. 7 is checked
 *   last: what is refused for another reason is refused so with any output. Of an
 *   import, lumbryth_sizes_with tells the length too, and how much the file holds.
 *   Where nothing is to be written, as in an empty list, no output is too short.
 *
 *
 * Traces
 *
 * A trace is a file of one of two containers. The caller says which: the calls that take
 * options do as these say, the others read btsnoop. Nothing is guessed: a file of the one
 * that is asked for as the other is refused, with 3 or 21.
 *
 * - LUMBRYTH_BTSNOOP. 16 bytes of header: "btsnoop", a zero byte, version 1, the
 *   datalink, 1001, 1002 or 2001. A record is 24 bytes and its packet. Numbers have
 *   their highest byte first.
 * - LUMBRYTH_PCAP. 24 bytes of header: the magic number A1B2C3D4 (times have
 *   microseconds) or A1B23C4D (nanoseconds), 16 bytes that are not looked at, the link
 *   type, 201. Numbers have their highest or their lowest byte first, as the magic number
 *   has. A record is 16 bytes (seconds since 1970, fraction, captured length, original
 *   length, 4 bytes each) and its packet, as many bytes as the captured length says. A
 *   packet is the direction, 4 bytes, highest first in any file (0 to the headset, 1 from
 *   it), then the type byte of H4, then the HCI packet. One with another direction, or
 *   too short to have one and a type, is passed over. There is one adapter, index 0.
 *
 * From the packets on, both are read alike: the same packets with the same times give the
 * same answer, but for offsets. pcapng, which Wireshark saves by default, is neither; it
 * is saved as pcap by `editcap -F pcap TRACE NEW`.
 *
 *
 * Lists
 *
 * A list is items one after another, without anything between them or around them:
 *
 *   4 bytes   length of the body, lowest byte first
 *   2 bytes   kind, lowest byte first
 *   so many   body
 *
 *   kind                    body
 *   1 LUMBRYTH_SPAN_RX      8 bytes milliseconds, lowest first; then the wire bytes
 *   2 LUMBRYTH_SPAN_TX      the same
 *   3 LUMBRYTH_NAME         a name, without a zero at its end
 *   4 LUMBRYTH_WIRE         the wire bytes of a fixture
 *
 * Milliseconds count from 1970-01-01 00:00 UTC. A list has at most LUMBRYTH_LIST_MAX
 * bytes.
 */
#ifndef LUMBRYTH_H
#define LUMBRYTH_H

#include <stddef.h>
#include <stdint.h>

#ifdef __cplusplus
extern "C" {
#endif

/* The kinds of items. LUMBRYTH_SPAN_RX and LUMBRYTH_SPAN_TX are also the two ways of
 * a frame: Rx is from the headset, Tx to it. */
#define LUMBRYTH_SPAN_RX 1
#define LUMBRYTH_SPAN_TX 2
#define LUMBRYTH_NAME 3
#define LUMBRYTH_WIRE 4

/* How many bytes stand before an item's body, and before a span's wire bytes. */
#define LUMBRYTH_ITEM_HEADER 6
#define LUMBRYTH_SPAN_HEADER 14

/* Limits. */
#define LUMBRYTH_FILE_MAX 1048576    /* the longest trace that is taken */
#define LUMBRYTH_WORK_FACTOR 8       /* bytes of work for each byte of the trace */
#define LUMBRYTH_PAYLOAD_MAX 32760   /* the longest payload that is packed */
#define LUMBRYTH_LIST_MAX 16777216   /* the longest list that is read */
#define LUMBRYTH_NAME_MAX 118        /* the longest name that is given */
#define LUMBRYTH_PACKET_MAX 65540    /* the longest packet of a btsnoop record; one that says more is damaged */
#define LUMBRYTH_PCAP_PACKET_MAX 65544 /* the same of a pcap record, which has the direction too, 4 bytes */
#define LUMBRYTH_HELD_MAX 65536      /* the most bytes that wait for an end marker, 3C */
#define LUMBRYTH_VALUES 10           /* the most values that a call stores, but for the gaps */

/* A channel that stands for: any. So does every other number over 255. */
#define LUMBRYTH_ANY_CHANNEL 256

/*
 * Refusals. What one carries is at the front of `values`.
 */
#define LUMBRYTH_OK 0

/* Of a trace, in the order in which they are checked; of a pcap file, 21 and 22 (below)
 * stand in the places of 3 and 4. Of one link's list there is no 6, and 23 (below) stands
 * in its place. */
#define LUMBRYTH_FILE_LONG 1     /* the file has over LUMBRYTH_FILE_MAX bytes */
#define LUMBRYTH_WORK_SHORT 2    /* work has under 8 times the file's length */
#define LUMBRYTH_NOT_BTSNOOP 3   /* under 16 bytes, or no btsnoop file of version 1 */
#define LUMBRYTH_DATALINK 4      /* a datalink other than 1001, 1002, 2001. Carries: it */
#define LUMBRYTH_TRUNCATED 5     /* strict only: a record passes the end. Carries: its start */
#define LUMBRYTH_NO_STREAM 6     /* no DLCI that was asked for has a span that unpacks */

/* Of any call that writes to `out`. */
#define LUMBRYTH_OUT_SHORT 7     /* the output is too short. Carries: the length needed */

/* Of a frame: checked in the order 10, 11, 12, 13 or 14, 15, 17, 16. */
#define LUMBRYTH_TOO_SHORT 10        /* under 9 bytes */
#define LUMBRYTH_NO_START 11         /* the first byte is not 3E */
#define LUMBRYTH_NO_END 12           /* the last byte is not 3C */
#define LUMBRYTH_TRAILING_SENTRY 13  /* an escape, 3D, with nothing after it */
#define LUMBRYTH_BAD_ESCAPEE 14      /* 3D and then not 2C, 2D or 2E. Carries: that byte */
#define LUMBRYTH_BODY_TOO_SHORT 15   /* under 7 bytes once the escapes are undone */
#define LUMBRYTH_LENGTH_MISMATCH 16  /* wrong length field. Carries: declared, actual */
#define LUMBRYTH_BAD_CHECKSUM 17     /* wrong sum. Carries: declared, computed */

/* Of packing. */
#define LUMBRYTH_PAYLOAD_LONG 18     /* the payload has over LUMBRYTH_PAYLOAD_MAX bytes */

/* Of lists. An item is wrong that passes the end or has a wrong kind; a span also if
 * its body has under 8 bytes. A list over LUMBRYTH_LIST_MAX bytes is wrong at 0. */
#define LUMBRYTH_SPANS_ILL 19        /* a list of spans. Carries: where its first wrong item starts */
#define LUMBRYTH_NAMES_ILL 20        /* a list of names. Carries: the same */

/* Of a trace that is asked for as pcap. */
#define LUMBRYTH_NOT_PCAP 21     /* under 24 bytes, or none of the four magic numbers first */
#define LUMBRYTH_LINK_TYPE 22    /* a link type, all 4 bytes, other than 201. Carries: it */

/* Of what is asked for of one link. It is checked right after 5. */
#define LUMBRYTH_NO_LINK 23      /* a handle over 4095, or a DLCI that is not 1 to 63 */

/*
 * Reads one frame, from its 3E through its 3C, and writes its payload to `out`.
 * Values: type, sequence number, payload length.
 * Refusals: 10 to 17, then 7. The payload is shorter than the wire.
 */
uint32_t lumbryth_unpack(const uint8_t *wire, size_t wire_len,
    uint8_t *out, size_t out_len, uint64_t *values, size_t values_len);

/*
 * Writes a frame to `out`: 3E, then type, sequence number, length, payload and sum,
 * escaped, then 3C.
 * Values: length of the frame.
 * Refusals: 18, 7. The frame has at most 16 + 2 * payload_len bytes.
 */
uint32_t lumbryth_pack(uint8_t type, uint8_t seq, const uint8_t *payload, size_t payload_len,
    uint8_t *out, size_t out_len, uint64_t *values, size_t values_len);

/*
 * Writes the file name of a frame to `out`, without a zero at its end. `ms` is its
 * time, `counter` its number in the trace, `way` LUMBRYTH_SPAN_RX or LUMBRYTH_SPAN_TX.
 * Values: length of the name, at most LUMBRYTH_NAME_MAX.
 * Refusals: those of lumbryth_unpack.
 */
uint32_t lumbryth_fixture_name(uint64_t ms, uint32_t counter, uint8_t way,
    const uint8_t *wire, size_t wire_len,
    uint8_t *out, size_t out_len, uint64_t *values, size_t values_len);

/*
 * Returns 1 if one of the two tables of commands has the name, else 0.
 */
uint32_t lumbryth_is_command_name(const uint8_t *name, size_t name_len);

/*
 * Makes fixtures of a list of spans, as an import writes it: for each span that
 * unpacks, and whose command is not in the list of names `excluded`, a name item and
 * then a wire item. Spans are counted from 1; those left out are counted too.
 * Values: fixtures, bytes written.
 * Refusals: 19, 20, 7.
 */
uint32_t lumbryth_plan(const uint8_t *spans, size_t spans_len,
    const uint8_t *excluded, size_t excluded_len,
    uint8_t *out, size_t out_len, uint64_t *values, size_t values_len);

/*
 * Writes a list of names in the order in which their frames crossed the link: names
 * without a counter first, then by counter, then by bytes.
 * Values: length of the list, which is that of `names`.
 * Refusals: 20, 7.
 */
uint32_t lumbryth_capture_order(const uint8_t *names, size_t names_len,
    uint8_t *out, size_t out_len, uint64_t *values, size_t values_len);

/*
 * Imports a btsnoop file: writes a list of spans to `out`, those of one DLCI, in the order
 * in which they were complete. It is the first DLCI seen that has a span which
 * unpacks; with a `channel` from 0 to 255, one of that channel.
 *
 * A trace of datalink 2001 may be of several adapters, and each of its records tells the
 * adapter's index. Connections are told apart by index and handle, so that two adapters
 * may use the same handle. The list has the spans of all of them, and does not tell which
 * adapter or handle a span came from; lumbryth_one_link_with lists those of one connection.
 *
 * `tolerant` 0 is the strict rule, which refuses a file that ends inside a record;
 * any other number reads what comes before that record.
 *
 * `work` is for the call's own use and needs LUMBRYTH_WORK_FACTOR times `file_len`
 * bytes. What it holds before does not matter, and what it holds after means nothing
 * (after refusals 1 and 2 it is as it was).
 *
 * Values: DLCI, frames (every span in the list, also those that do not unpack),
 * unfinished (how many stretches and directions of the DLCI hold bytes without an end
 * marker, 3C; a PDU of which only a part was recorded is not counted), tail offset,
 * bytes written, wrong FCS (how many UIH frames of the DLCI were passed over because their
 * FCS is wrong; always 0 here, as only the calls with options check it, if they are asked
 * to), and four that say where every information byte of the DLCI went: bytes in spans,
 * bytes dropped, bytes cleared, bytes left (struct lumbryth_imported says what each is).
 * The tail offset is where reading stopped: the file's length, or where the record
 * starts that passes the file's end, from the file's start. If it is less than
 * `file_len`, the file was cut, or is damaged there: no packet has over
 * LUMBRYTH_PACKET_MAX bytes (in pcap LUMBRYTH_PCAP_PACKET_MAX). If it is `file_len`, the
 * file ends at a record's end, and whether more was recorded cannot be seen.
 *
 * Refusals: 1 to 7, in this order.
 */
uint32_t lumbryth_import(const uint8_t *file, size_t file_len,
    uint8_t *work, size_t work_len, uint8_t *out, size_t out_len,
    uint32_t channel, uint32_t tolerant, uint64_t *values, size_t values_len);

/* The same by the strict rule. */
uint32_t lumbryth_import_strict(const uint8_t *file, size_t file_len,
    uint8_t *work, size_t work_len, uint8_t *out, size_t out_len,
    uint32_t channel, uint64_t *values, size_t values_len);

/* The containers of a trace. */
#define LUMBRYTH_BTSNOOP 0
#define LUMBRYTH_PCAP 1

/*
 * What a caller chooses. The calls whose names end with `_with` take it as a list of
 * numbers, its fields, of which there are LUMBRYTH_OPTIONS. Fields that are added later
 * come at the end, and an option that is not in the list has its default, so a caller that
 * passes fewer goes on as before.
 */
struct lumbryth_options {
    uint64_t channel;   /* 0 to 255; any other number, and the default: any channel */
    uint64_t tolerant;  /* 0, and the default: the strict rule; any other number: tolerant */
    uint64_t container; /* 0, and the default: btsnoop; any other number: pcap */
    uint64_t check_fcs; /* 0, and the default: FCS not checked; any other number: checked */
};
#define LUMBRYTH_OPTIONS (sizeof(struct lumbryth_options) / sizeof(uint64_t))

/*
 * What an import stores in `values`, with room for LUMBRYTH_VALUES. Fields that are added
 * later come at the end.
 *
 * The last four say where every information byte of the DLCI went. Each stretch and
 * direction has a buffer. The information of a UIH frame goes behind what that holds; then,
 * again and again, bytes before the first start marker, 3E, are dropped (all, if there is
 * none), and what stands through the first end marker, 3C, is a span. If over
 * LUMBRYTH_HELD_MAX bytes are held after that, they are cleared. So
 *
 *   in_spans + dropped + cleared + left   is the number of information bytes of the DLCI
 *   bytes                                 is in_spans + LUMBRYTH_SPAN_HEADER * frames
 *   left                                  is 0 just if `unfinished` is 0
 *
 * The information bytes are those of the UIH frames that are taken: whole ones on channels
 * that are RFCOMM or may be, with `check_fcs` those with a right FCS. Bytes of a UIH frame
 * that is passed over for its FCS, of a PDU that is never complete, and of a record that
 * passes the file's end stand in none of the four.
 */
struct lumbryth_imported {
    uint64_t dlci;
    uint64_t frames;
    uint64_t unfinished;
    uint64_t tail;
    uint64_t bytes;
    uint64_t wrong_fcs;
    uint64_t in_spans; /* in the spans of the list, markers included, unpacking or not */
    uint64_t dropped;  /* before a start marker or for want of one, stray end markers too */
    uint64_t cleared;  /* in buffers that were cleared: 0, or over LUMBRYTH_HELD_MAX */
    uint64_t left;     /* held at the end without an end marker, of all stretches together */
};

/*
 * Imports as lumbryth_import does, by a list of options: a btsnoop or a pcap file. For
 * example
 *
 *   struct lumbryth_options options = {LUMBRYTH_ANY_CHANNEL, 1, LUMBRYTH_PCAP, 0};
 *   struct lumbryth_imported answer;
 *   number = lumbryth_import_with(file, file_len, work, work_len, out, out_len,
 *       (const uint64_t *)&options, LUMBRYTH_OPTIONS, (uint64_t *)&answer, LUMBRYTH_VALUES);
 *
 * With `check_fcs`, the FCS of each UIH frame is checked: the byte after the information
 * (bytes after it are not looked at) against TS 07.10's check over address and control. A
 * UIH frame whose FCS is wrong is passed over as if it were none: its information is not
 * taken, no DLCI is seen by it, and what came before it and comes after it joins. The DLCI
 * is chosen by the other frames, so it may be another than without `check_fcs`, or none
 * (6). `wrong_fcs` is how many UIH frames of the DLCI have a wrong FCS, with information
 * or without, anywhere in the file; it is 0 without `check_fcs`, and 6 does not carry it. Of
 * other frames, SABM too, the FCS is not checked.
 *
 * Refusals: 1 to 7, in this order; of pcap 1, 2, 21, 22, 5, 6, 7.
 */
uint32_t lumbryth_import_with(const uint8_t *file, size_t file_len,
    uint8_t *work, size_t work_len, uint8_t *out, size_t out_len,
    const uint64_t *options, size_t options_len, uint64_t *values, size_t values_len);

/*
 * What lumbryth_sizes_with stores in `values`, with room for LUMBRYTH_SIZES. Fields that are
 * added later come at the end.
 */
struct lumbryth_sizes {
    uint64_t needed;  /* the output that an import needs: the length of its list, 23 or more */
    uint64_t records; /* whole records, whatever they hold */
    uint64_t pdus;    /* completed PDUs of all connections, directions and channels */
    uint64_t pieces;  /* UIH frames with information that are taken, of all DLCIs but 0 */
};
#define LUMBRYTH_SIZES (sizeof(struct lumbryth_sizes) / sizeof(uint64_t))

/*
 * Tells the sizes of a trace before it is imported. It takes all that lumbryth_import_with
 * takes but the output, and writes none. So memory can be lent that is just enough:
 *
 *   struct lumbryth_sizes sizes;
 *   number = lumbryth_sizes_with(file, file_len, work, work_len,
 *       (const uint64_t *)&options, LUMBRYTH_OPTIONS, (uint64_t *)&sizes, LUMBRYTH_SIZES);
 *
 * An import of the same file by the same options, with as much work, is refused with 7 if
 * `out_len` is under `needed`, and not if it is `needed` or more. If this call refuses, so
 * does that import, with the same number and the same values, whatever output is lent.
 * So it is for lumbryth_import_stretches_with, if it has places enough; how many it wants
 * is not told here.
 *
 * All four are of one reading of the file. Records are those of lumbryth_records_with: the
 * one that passes the file's end is not counted. PDUs are counted that were completed,
 * tried as RFCOMM or not, those on CID 1 and empty ones too; not those that were given up
 * or are open at the end. A piece is the information of a UIH frame that is taken, of any
 * DLCI but 0, if it is not empty: on channels that are RFCOMM or may be, with `check_fcs` of
 * a right FCS. Records and PDUs do not depend on `channel` and `check_fcs`, pieces not on
 * `channel`.
 *
 * `work` is as for lumbryth_import. The call costs what an import does without its writing.
 *
 * Values: the fields of struct lumbryth_sizes.
 * Refusals: 1 to 6, in this order; of pcap 1, 2, 21, 22, 5, 6. None is 7.
 */
uint32_t lumbryth_sizes_with(const uint8_t *file, size_t file_len,
    uint8_t *work, size_t work_len,
    const uint64_t *options, size_t options_len, uint64_t *values, size_t values_len);

/*
 * A stretch and direction that holds bytes without an end marker at the end of a trace.
 *
 * `way` tells the connection and the direction in one number. A connection is an
 * adapter's index and a handle, since two adapters may use the same handle for two
 * connections:
 *
 *   way  = 2 * link + direction    direction: 1 from the headset, 0 to it
 *   link = 4096 * index + handle   handle: 0 to 4095
 *
 * The index is 0 to 65535 in a trace of datalink 2001, whose records tell it, and 0 in
 * one of 1001 or 1002 and in pcap; there `way` is 2 * handle + direction. The three
 * macros below take `way` apart.
 *
 * Sessions and links are those of the connection, by index and handle, that were counted
 * before the stretch.
 */
struct lumbryth_stretch {
    uint32_t way;      /* connection and direction, as above */
    uint32_t cid;
    uint32_t dlci;
    uint32_t sessions; /* how often a session of the connection was opened */
    uint32_t links;    /* how often the connection's link of the DLCI was opened */
    uint32_t held;     /* how many bytes are held */
};

/* The parts of a stretch's `way`. */
#define LUMBRYTH_WAY_ADAPTER(way) ((uint32_t)(way) / 8192)      /* the adapter's index */
#define LUMBRYTH_WAY_HANDLE(way) ((uint32_t)(way) / 2 % 4096)   /* the handle */
#define LUMBRYTH_WAY_RX(way) ((uint32_t)(way) % 2)              /* 1 from the headset, 0 to it */

/*
 * Imports as lumbryth_import does, and puts the stretches of the DLCI that hold bytes at
 * the end, as many as `unfinished` says, to the first places of `stretches`, in the order
 * of their first bytes; places past those stay as they were, and after a refusal all of
 * them do. The list needs file_len / 24 places, rounded down, else the call refuses with 2.
 */
uint32_t lumbryth_import_stretches(const uint8_t *file, size_t file_len,
    uint8_t *work, size_t work_len, struct lumbryth_stretch *stretches, size_t stretches_len,
    uint8_t *out, size_t out_len,
    uint32_t channel, uint32_t tolerant, uint64_t *values, size_t values_len);

/*
 * The same by a list of options: of a btsnoop or a pcap file, with the FCS checked or not.
 * The stretches are those of the bytes that are taken. Places, and the refusal without
 * enough of them, are as there. Refusals: as for lumbryth_import_with.
 */
uint32_t lumbryth_import_stretches_with(const uint8_t *file, size_t file_len,
    uint8_t *work, size_t work_len, struct lumbryth_stretch *stretches, size_t stretches_len,
    uint8_t *out, size_t out_len,
    const uint64_t *options, size_t options_len, uint64_t *values, size_t values_len);

/*
 * What lumbryth_one_link_with stores in `values`, with room for LUMBRYTH_LINK_LIST. Fields
 * that are added later come at the end.
 */
struct lumbryth_link_list {
    uint64_t spans;      /* every span in the list, also those that do not unpack */
    uint64_t unfinished; /* how many stretches and directions hold bytes without an end marker */
    uint64_t bytes;      /* the length of the list, in bytes */
};
#define LUMBRYTH_LINK_LIST (sizeof(struct lumbryth_link_list) / sizeof(uint64_t))

/*
 * Lists the spans of one connection and one DLCI, as of one of two headsets at one desk:
 * writes them to `out` as lumbryth_import_with does, in the order in which they were
 * complete. The connection is an adapter's `index` and a `handle`, 0 to 4095. `dlci` is the
 * DLCI itself, 1 to 63, and not a channel: 18 and 19, both of channel 9, are two lists. The
 * list has them nowhere, so the caller remembers what was asked for. `index` and `handle`
 * have 16 bits, `dlci` has 8: C cuts a larger number before the call, and 23 then does not
 * tell of it, so check it first. For example
 *
 *   struct lumbryth_link_list answer;
 *   number = lumbryth_one_link_with(file, file_len, work, work_len, out, out_len, 0, 6, 18,
 *       (const uint64_t *)&options, LUMBRYTH_OPTIONS,
 *       (uint64_t *)&answer, LUMBRYTH_LINK_LIST);
 *
 * What it gives depends on that connection's own ACL packets alone: two files that are not
 * refused and hold the same ones, with the same times, directions and order, give the same
 * answer and list if enough output is lent, whatever else differs, the container too. So no
 * other connection adds to the list, takes from it, or changes which channels are tried.
 *
 * Of the options only the container is looked at. The file is read by the strict rule, and
 * the FCS is not checked. Nothing has to unpack: spans that do not are listed, and the list
 * may be empty, of 0 bytes, which is an answer. So it is where no packet is of that
 * connection, or no span of that DLCI. In btsnoop of datalink 1001 and 1002 and in pcap all
 * packets have index 0, and any other index has the empty list.
 *
 * Where an import by the strict rule, with the FCS not checked, takes the DLCI, its list
 * has the spans of all connections in the order in which they were complete, and its
 * `frames`, `unfinished` and `bytes` are the sums of theirs.
 *
 * `work` is as for lumbryth_import.
 *
 * Values: the fields of struct lumbryth_link_list.
 * Refusals: 1 to 5, 23, 7, in this order; of pcap 1, 2, 21, 22, 5, 23, 7. None is 6.
 */
uint32_t lumbryth_one_link_with(const uint8_t *file, size_t file_len,
    uint8_t *work, size_t work_len, uint8_t *out, size_t out_len,
    uint16_t index, uint16_t handle, uint8_t dlci,
    const uint64_t *options, size_t options_len, uint64_t *values, size_t values_len);

/*
 * Finds the records of a btsnoop file: stores where each whole record starts at the front
 * of `starts`, as many as there is room for; places past those stay as they were, and all
 * of them after a refusal. A file has at most (file_len - 16) / 24 records. A record is 24
 * bytes and its packet, whose length stands in its bytes 4 to 7, highest first.
 * Values: number of records, tail offset (as for an import).
 * Refusals: 1, 3, 4.
 */
uint32_t lumbryth_records(const uint8_t *file, size_t file_len,
    uint64_t *starts, size_t starts_len, uint64_t *values, size_t values_len);

/*
 * The same by a list of options, of which only the container is looked at: of a btsnoop
 * or a pcap file. A pcap file has at most (file_len - 24) / 16 records. A record of it is
 * 16 bytes and its packet, whose length stands in its bytes 8 to 11, in the file's order.
 * Refusals: 1, 3, 4; of pcap 1, 21, 22.
 */
uint32_t lumbryth_records_with(const uint8_t *file, size_t file_len,
    uint64_t *starts, size_t starts_len,
    const uint64_t *options, size_t options_len, uint64_t *values, size_t values_len);

/*
 * A sign that something is not in a trace: how many there are, and the byte of the file
 * at which the record starts that shows it first; 0 if there is none, as no record
 * starts there.
 */
struct lumbryth_gap {
    uint64_t count;
    uint64_t first;
};

/* What lumbryth_gaps and lumbryth_gaps_with store in `values`, with room for
 * LUMBRYTH_GAPS. */
struct lumbryth_signs {
    struct lumbryth_gap stored_short; /* records whose original length is over the stored one */
    struct lumbryth_gap dropped;      /* packets that the recorder says it dropped; in pcap it cannot */
    struct lumbryth_gap skipped;      /* ACL packets without one of their fields, or their data */
    struct lumbryth_gap zeros;        /* records of zeros */
    struct lumbryth_gap stray;        /* continuations with nothing open */
    struct lumbryth_gap given_up;     /* partial PDUs given up because another starts */
    struct lumbryth_gap open;         /* PDUs open at the end */
};
#define LUMBRYTH_GAPS (sizeof(struct lumbryth_signs) / sizeof(uint64_t))

/*
 * Finds the signs in a btsnoop file that something is not in it. Which DLCI they are of is not
 * asked: they are those of the whole records of the file. Without any, something may be
 * missing all the same, as what leaves no sign cannot be seen.
 *
 * The packets dropped are by how much the drops field rises from record to record, from
 * 0; where it falls nothing is counted, and the first is the first record where it rises.
 * A partial PDU is given up at the record of the packet that starts another; one that is
 * open at the end is told by the record of the packet that began it. PDUs are put together
 * for each connection, by index and handle, and each direction.
 *
 * `tolerant` and `work` are as for lumbryth_import. For example
 *
 *   struct lumbryth_signs signs;
 *   number = lumbryth_gaps(file, file_len, work, work_len, 1, (uint64_t *)&signs, LUMBRYTH_GAPS);
 *
 * Values: the fields of struct lumbryth_signs, two for each sign.
 * Refusals: 1 to 5, in this order.
 */
uint32_t lumbryth_gaps(const uint8_t *file, size_t file_len,
    uint8_t *work, size_t work_len, uint32_t tolerant, uint64_t *values, size_t values_len);

/*
 * The same by a list of options, of which the rule and the container are looked at: of a
 * btsnoop or a pcap file. In pcap a record is stored short if its original length is over
 * its captured length, and `dropped` is always 0 and 0: its records have no such count.
 * Refusals: 1 to 5, in this order; of pcap 1, 2, 21, 22, 5.
 */
uint32_t lumbryth_gaps_with(const uint8_t *file, size_t file_len,
    uint8_t *work, size_t work_len,
    const uint64_t *options, size_t options_len, uint64_t *values, size_t values_len);

#ifdef __cplusplus
}
#endif

#endif
