/* Stumpclover: the switch of a measuring head, and the bench on which planners try a stand, as C
 * functions over the proved engine, for x86-64 programs. `examples/run` builds the archives, by
 * `rt lib` in crates/engine_c and in crates/engine_bench: target/staticlib/libengine.a, with a head's
 * functions sc_switch_fresh, sc_step, sc_lookup, sc_tag and sc_strip, and libengine_bench.a, with
 * sc_read, sc_write, sc_fresh and sc_event. Each is whole by itself; a program may link both.
 *
 * Every function takes any arguments and returns 0, or the number of the first cause in document
 * 01's order for which it refuses the call. A refused call leaves everything lent as it was, also
 * what the references for its answer point to. A slice is a pointer and how many elements it has.
 *
 * What a caller must not do, since nothing can test it:
 *   - lend two arguments that overlap, where one of them is not const;
 *   - pass a null pointer, or one not aligned for its type, even with length 0 (a slice of length
 *     0 may point anywhere that is aligned and not null);
 *   - say more elements than there are, or change what is lent while a call runs.
 * A call keeps no pointer when it returns, has no state of its own, and can run beside others that
 * lend other memory. sc_fresh and sc_event take some 200 kilobytes of stack, the others at most 8.
 *
 * An address is a number below 2^48, its first byte on the wire the highest. Bit p of a mask stands
 * for port p. The state is plain arrays, so that it can lie anywhere and a step copies nothing; the
 * structs below name them, and the inline functions at the end pass a struct's parts on. */
#ifndef STUMPCLOVER_H
#define STUMPCLOVER_H

#include <stdbool.h>
#include <stddef.h>
#include <stdint.h>

#ifdef __cplusplus
#define SC_ASSERT(what, why) static_assert(what, why)
extern "C" {
#else
#define SC_ASSERT(what, why) _Static_assert(what, why)
#endif

SC_ASSERT(sizeof(size_t) == 8, "the engine is compiled for x86-64");

enum {
    SC_SLOTS = 64,            /* of a learning table */
    SC_CELL = 10,             /* bytes of a filter's cell; a filter has 16, 32, 64, 128 or 256 of them */
    SC_TAG = 6,               /* bytes that tagging adds */
    SC_LONGEST_FRAME = 1514,  /* from a host, without check sequence */
    SC_LONGEST_TAGGED = 1520,
    SC_SWITCHES = 16,
    SC_HOSTS = 32,
    SC_LINKS = 64,
    SC_BENCH_CELLS = 640,     /* bytes of a filter on the bench */
    SC_COPIES = 512,          /* at most in flight */
    SC_LONGEST_DESCRIPTION = 945
};

/* ---- A head's switch ---------------------------------------------------------------------- */

/* Its setup is numbers: ports 1..16; live and host, masks over them; limit 1..62; salt. What a step
 * changes is lent: the next nonce, the table's slots, and the filter's cells, which stay outside
 * since their number is the head's to choose. A slot is all zeros or an address with the port and
 * the hop count that it was learned with. */
typedef struct {
    uint8_t ports;
    uint8_t limit;
    uint16_t live;
    uint16_t host;
    uint32_t salt;
    uint32_t nonce;
    uint64_t addresses[SC_SLOTS];
    uint8_t via[SC_SLOTS];
    uint8_t hops[SC_SLOTS];
} sc_switch;

/* What a step tells, 8 numbers. verdict is the letter as a character: X D G E drop, with mask and
 * header all 0; F N B H U send the frame with this header on the ports of the mask. A flag is 1 or 0. */
typedef struct {
    uint64_t table_full;   /* the source wasn't learned: no slot was free */
    uint64_t overwrote;    /* the filter lost another triple */
    uint64_t verdict;
    uint64_t mask;
    uint64_t l;
    uint64_t f;
    uint64_t hc;
    uint64_t nonce;
} sc_report;

SC_ASSERT(sizeof(sc_report) == 8 * sizeof(uint64_t), "a report is 8 numbers");

/* Makes a switch that has met no frame.
 * Refuses: 1, where ports, masks or limit break document 01, a slot array has not 64 elements, or
 * the filter's length is none of 160, 320, 640, 1280, 2560 bytes.
 * After: next nonce 0, every slot and every byte of the filter 0. */
uint8_t sc_switch_fresh(uint8_t ports, uint16_t live, uint16_t host, uint8_t limit, uint32_t salt,
                        uint32_t *nonce, uint64_t *addresses, size_t naddresses, uint8_t *via,
                        size_t nvia, uint8_t *hops, size_t nhops, uint8_t *filter, size_t nfilter);

/* One step: a frame arrives on a port, from a host without tag, from another switch with one.
 * Refuses: 1 to 9 in document 01's order; 1 also where a slot array has not 64 elements or the
 * report not 8. Room for the tagged frame (9) is asked for whatever the verdict.
 * After: the next nonce, slots and filter as the rules left them; the report's 8 numbers; after a
 * sending verdict out holds the tagged frame at its start and stays as it was behind it, after a
 * drop all of it does. The tagged frame has nframe + 6 bytes from a host port, else nframe. On a
 * host port of the mask sc_strip's result goes out, on any other the tagged frame. */
uint8_t sc_step(uint8_t ports, uint16_t live, uint16_t host, uint8_t limit, uint32_t salt,
                uint32_t *nonce, uint64_t *addresses, size_t naddresses, uint8_t *via, size_t nvia,
                uint8_t *hops, size_t nhops, uint8_t *filter, size_t nfilter, uint8_t port,
                const uint8_t *frame, size_t nframe, uint8_t *out, size_t nout, uint64_t *report,
                size_t nreport);

/* What a table has of an address.
 * Refuses: 1, where a slot array has not 64 elements.
 * After: found 1, and the port and the hop count; or found 0 and both 0. Address 0 is never found. */
uint8_t sc_lookup(const uint64_t *addresses, size_t naddresses, const uint8_t *via, size_t nvia,
                  const uint8_t *hops, size_t nhops, uint64_t address, uint8_t *found, uint8_t *port,
                  uint8_t *hc);

/* ---- Tagged frames ------------------------------------------------------------------------ */

/* The frame with a header: our type 0x88B5 and four bytes, before its old type.
 * Refuses: 4 (not 60..1,514 bytes), 6 (of type 0x88B5), 8 (hc 0), 10 (hc above 63, nonce from
 * 2^24), 9 (out shorter than nframe + 6).
 * After: out starts with the tagged frame and is unchanged behind it; *length is nframe + 6. */
uint8_t sc_tag(const uint8_t *frame, size_t nframe, bool l, bool f, uint8_t hc, uint32_t nonce,
               uint8_t *out, size_t nout, size_t *length);

/* The host frame and the header of a tagged frame.
 * Refuses: 4 (not 66..1,520 bytes), 6 (tagged twice), 7 (not of type 0x88B5), 8 (hop count 0), 9
 * (out shorter than nframe - 6).
 * After: out starts with the host frame and is unchanged behind it; *length is nframe - 6; *l and
 * *f are 0 or 1, *hc is 1..63, *nonce below 2^24. */
uint8_t sc_strip(const uint8_t *frame, size_t nframe, uint8_t *out, size_t nout, size_t *length,
                 uint8_t *l, uint8_t *f, uint8_t *hc, uint32_t *nonce);

/* ---- A network and its description ---------------------------------------------------------- */

typedef struct {
    uint8_t number;
    uint8_t port;
} sc_end;

/* A network's bytes. What a count leaves unused is never looked at; the reader makes it zeros. */
typedef struct {
    uint8_t nswitches;
    uint8_t nhosts;
    uint8_t nlinks;
    struct {
        uint8_t ports;  /* 1..8 */
        uint8_t limit;  /* 0..62; 0 is the default */
    } switches[SC_SWITCHES];
    sc_end hosts[SC_HOSTS];  /* a host's switch, and its port there */
    struct {
        sc_end first;
        sc_end second;
    } links[SC_LINKS];
} sc_network_bytes;

SC_ASSERT(sizeof(sc_network_bytes) == 355, "a network's bytes lie one behind the other");

typedef struct {
    sc_network_bytes bytes;
    uint32_t salts[SC_SWITCHES];     /* of the switches */
    uint64_t addresses[SC_HOSTS];    /* of the hosts */
} sc_network;

/* Reads the description that input starts with, up to its end or to the first event.
 * Refuses: 20, where the network's arrays have not 355, 16 and 32 elements; then 25 (input over
 * 60,000 bytes), 21, and by the first faulty record 20, 25, 26, 22, 23, 24.
 * After: the network, every element of its arrays; *end is where the events start, or ninput. */
uint8_t sc_read(const uint8_t *input, size_t ninput, uint8_t *bytes, size_t nbytes, uint32_t *salts,
                size_t nsalts, uint64_t *addresses, size_t naddresses, size_t *end);

/* Writes a network's description.
 * Refuses: 20, where the network's arrays have not 355, 16 and 32 elements; then by the first
 * faulty record 25, 26, 22, 23, 24; then 27 (out too short).
 * After: out starts with the description, *length bytes, and is unchanged behind it. */
uint8_t sc_write(const uint8_t *bytes, size_t nbytes, const uint32_t *salts, size_t nsalts,
                 const uint64_t *addresses, size_t naddresses, uint8_t *out, size_t nout,
                 size_t *length);

/* ---- The bench ---------------------------------------------------------------------------- */

/* A bench's four arrays, beside its network's. Head k is switch k of the network; what the network
 * has no switch, link or copy for is never looked at. */
typedef struct {
    uint8_t up[SC_LINKS];  /* 0: the link is down; else up */
    uint8_t ports[SC_SWITCHES];
    uint8_t limits[SC_SWITCHES];
    uint8_t via[SC_SWITCHES][SC_SLOTS];
    uint8_t hops[SC_SWITCHES][SC_SLOTS];
    uint8_t cells[SC_SWITCHES][SC_BENCH_CELLS];
} sc_bench_bytes;

typedef struct {
    uint16_t live[SC_SWITCHES];
    uint16_t host[SC_SWITCHES];
} sc_bench_masks;

typedef struct {
    uint32_t salts[SC_SWITCHES];
    uint32_t nonces[SC_SWITCHES];
} sc_bench_words;

typedef struct {
    uint64_t addresses[SC_SWITCHES][SC_SLOTS];
    uint64_t copies[SC_COPIES][3];  /* packed; those in flight come first */
    uint64_t flying;                /* how many of them are in flight */
} sc_bench_wides;

SC_ASSERT(sizeof(sc_bench_bytes) == 12384, "a bench's bytes lie one behind the other");
SC_ASSERT(sizeof(sc_bench_masks) == 32 * sizeof(uint16_t), "and so do its masks");
SC_ASSERT(sizeof(sc_bench_words) == 32 * sizeof(uint32_t), "its words");
SC_ASSERT(sizeof(sc_bench_wides) == 2561 * sizeof(uint64_t), "and its wide words");

typedef struct {
    sc_bench_bytes bytes;
    sc_bench_masks masks;
    sc_bench_words words;
    sc_bench_wides wides;
} sc_bench;

/* What has happened on a bench since it was fresh; all zeros then. */
typedef struct {
    uint64_t placed;
    uint64_t taken;
    uint64_t cut;
    uint64_t lost;
    uint64_t delivered;
    uint64_t overwritten;
    uint64_t accepted;
} sc_counters;

/* What an event tells, 15 numbers. Where a link was set, verdict is K and all but cut are 0. */
typedef struct {
    uint64_t cut;          /* copies lost because their link was set down */
    uint64_t head;         /* which head stepped */
    uint64_t port;         /* where the frame arrived */
    uint64_t source;
    uint64_t destination;
    uint64_t placed;
    uint64_t lost;         /* there was no room for them in the list */
    uint64_t received;     /* bit h: host h received the frame */
    uint64_t overwrote;
    uint64_t verdict;      /* the letter, as a step's */
    uint64_t mask;
    uint64_t l;
    uint64_t f;
    uint64_t hc;
    uint64_t nonce;
} sc_event_report;

SC_ASSERT(sizeof(sc_counters) == 7 * sizeof(uint64_t), "counters are 7 numbers");
SC_ASSERT(sizeof(sc_event_report) == 15 * sizeof(uint64_t), "an event's report is 15 numbers");

/* A bench on which nothing has happened: tables and filters empty, nonces 0, all links up.
 * Refuses: 20, where the network's arrays have not 355, 16 and 32 elements; 28, where the bench's
 * have not 12,384, 32, 32 and 2,561; then 25, 26, 22, 23, 24, where sc_write would refuse the
 * network with that number.
 * After: the bench, every element of its arrays. The network is only read. */
uint8_t sc_fresh(const uint8_t *network, size_t nnetwork, const uint32_t *salts, size_t nsalts,
                 const uint64_t *addresses, size_t naddresses, uint8_t *bytes, size_t nbytes,
                 uint16_t *masks, size_t nmasks, uint32_t *words, size_t nwords, uint64_t *wides,
                 size_t nwides);

/* One event on a bench: the one whose record, kind 4, 5 or 6, input starts with; what stands behind
 * the record is not looked at. The record takes 2 bytes more than its first two say.
 * Refuses: 20, where the network's arrays have not 355, 16 and 32 elements; 28, where the bench's
 * have not 12,384, 32, 32 and 2,561, the counters not 7 or the report not 15; 20, where the record
 * is cut short, of wrong length or of another kind; then 34, 28, and 30, 31, 32 or 33.
 * After: bench, counters and report. The network is only read. */
uint8_t sc_event(const uint8_t *network, size_t nnetwork, const uint32_t *salts, size_t nsalts,
                 const uint64_t *addresses, size_t naddresses, uint8_t *bytes, size_t nbytes,
                 uint16_t *masks, size_t nmasks, uint32_t *words, size_t nwords, uint64_t *wides,
                 size_t nwides, uint64_t *counters, size_t ncounters, const uint8_t *input,
                 size_t ninput, uint64_t *report, size_t nreport);

/* ---- The same on the structs above --------------------------------------------------------- */

/* Sets nonce and slots of s, whose setup the caller has filled in, and its filter. */
static inline uint8_t sc_switch_clear(sc_switch *s, uint8_t *filter, size_t nfilter)
{
    return sc_switch_fresh(s->ports, s->live, s->host, s->limit, s->salt, &s->nonce, s->addresses,
                           SC_SLOTS, s->via, SC_SLOTS, s->hops, SC_SLOTS, filter, nfilter);
}

static inline uint8_t sc_switch_step(sc_switch *s, uint8_t *filter, size_t nfilter, uint8_t port,
                                     const uint8_t *frame, size_t nframe, uint8_t *out, size_t nout,
                                     sc_report *report)
{
    return sc_step(s->ports, s->live, s->host, s->limit, s->salt, &s->nonce, s->addresses, SC_SLOTS,
                   s->via, SC_SLOTS, s->hops, SC_SLOTS, filter, nfilter, port, frame, nframe, out,
                   nout, (uint64_t *)report, 8);
}

static inline uint8_t sc_switch_lookup(const sc_switch *s, uint64_t address, uint8_t *found,
                                       uint8_t *port, uint8_t *hc)
{
    return sc_lookup(s->addresses, SC_SLOTS, s->via, SC_SLOTS, s->hops, SC_SLOTS, address, found,
                     port, hc);
}

static inline uint8_t sc_network_read(sc_network *n, const uint8_t *input, size_t ninput, size_t *end)
{
    return sc_read(input, ninput, (uint8_t *)&n->bytes, sizeof n->bytes, n->salts, SC_SWITCHES,
                   n->addresses, SC_HOSTS, end);
}

static inline uint8_t sc_network_write(const sc_network *n, uint8_t *out, size_t nout, size_t *length)
{
    return sc_write((const uint8_t *)&n->bytes, sizeof n->bytes, n->salts, SC_SWITCHES, n->addresses,
                    SC_HOSTS, out, nout, length);
}

static inline uint8_t sc_bench_fresh(const sc_network *n, sc_bench *b)
{
    return sc_fresh((const uint8_t *)&n->bytes, sizeof n->bytes, n->salts, SC_SWITCHES, n->addresses,
                    SC_HOSTS, (uint8_t *)&b->bytes, sizeof b->bytes, (uint16_t *)&b->masks, 32,
                    (uint32_t *)&b->words, 32, (uint64_t *)&b->wides, 2561);
}

static inline uint8_t sc_bench_event(const sc_network *n, sc_bench *b, sc_counters *c,
                                     const uint8_t *record, size_t nrecord, sc_event_report *report)
{
    return sc_event((const uint8_t *)&n->bytes, sizeof n->bytes, n->salts, SC_SWITCHES, n->addresses,
                    SC_HOSTS, (uint8_t *)&b->bytes, sizeof b->bytes, (uint16_t *)&b->masks, 32,
                    (uint32_t *)&b->words, 32, (uint64_t *)&b->wides, 2561, (uint64_t *)c, 7, record,
                    nrecord, (uint64_t *)report, 15);
}

/* A host presents a frame to an address, its first byte first. */
static inline uint8_t sc_bench_present(const sc_network *n, sc_bench *b, sc_counters *c, uint8_t host,
                                       const uint8_t to[6], sc_event_report *report)
{
    const uint8_t record[10] = {0, 8, 4, host, to[0], to[1], to[2], to[3], to[4], to[5]};
    return sc_bench_event(n, b, c, record, sizeof record, report);
}

/* The copy at a place of the list is taken. */
static inline uint8_t sc_bench_take(const sc_network *n, sc_bench *b, sc_counters *c, uint16_t place,
                                    sc_event_report *report)
{
    const uint8_t record[5] = {0, 3, 5, (uint8_t)(place >> 8), (uint8_t)(place & 255)};
    return sc_bench_event(n, b, c, record, sizeof record, report);
}

/* A link is set down, 0, or up, 1. */
static inline uint8_t sc_bench_set(const sc_network *n, sc_bench *b, sc_counters *c, uint8_t link,
                                   uint8_t state, sc_event_report *report)
{
    const uint8_t record[5] = {0, 3, 6, link, state};
    return sc_bench_event(n, b, c, record, sizeof record, report);
}

#ifdef __cplusplus
}
#endif

#endif
