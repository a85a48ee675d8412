/* A head in C: it steps the frames that arrive on its ports, and strips what goes out to hosts. The
 * main below runs it on four of document 01's worked steps, tries refusals, sends a frame through
 * tag and strip, reads and writes a description, and lets the bench run document 01's whole run.
 * examples/head.txt is what it must print. */
#include "stumpclover.h"

#include <inttypes.h>
#include <stdio.h>
#include <string.h>

typedef struct {
    sc_switch here;
    uint8_t filter[64 * SC_CELL];
} head;

/* What is put on a port's cable; here it is only printed. */
static void send_on(unsigned port, const char *what, size_t length)
{
    printf("   port %u: %s frame of %zu bytes\n", port, what, length);
}

/* A frame arrives: the step decides, and each port of its mask gets the frame, stripped where a
 * host is. Returns the refusal number. */
static uint8_t arrive(head *h, uint8_t port, const uint8_t *frame, size_t length, sc_report *report)
{
    uint8_t tagged[SC_LONGEST_TAGGED], plain[SC_LONGEST_FRAME];
    uint8_t n = sc_switch_step(&h->here, h->filter, sizeof h->filter, port, frame, length, tagged,
                               sizeof tagged, report);
    if (n != 0)
        return n;
    if (h->here.host >> port & 1)
        length += SC_TAG;
    for (unsigned p = 0; p < h->here.ports; p++) {
        if (!(report->mask >> p & 1))
            continue;
        if (h->here.host >> p & 1) {
            size_t stripped;
            uint8_t l, f, hc;
            uint32_t nonce;
            if (sc_strip(tagged, length, plain, sizeof plain, &stripped, &l, &f, &hc, &nonce) == 0)
                send_on(p, "host", stripped);
        } else {
            send_on(p, "tagged", length);
        }
    }
    return 0;
}

static const uint64_t A = 0x020000000001, B = 0x020000000002;

static void put_address(uint8_t *at, uint64_t address)
{
    for (int i = 0; i < 6; i++)
        at[i] = (uint8_t)(address >> 8 * (5 - i));
}

/* A host's frame of 60 bytes. */
static void host_frame(uint8_t frame[60], uint64_t to, uint64_t from)
{
    memset(frame, 0, 60);
    put_address(frame, to);
    put_address(frame + 6, from);
    frame[12] = 0x08;
}

static void entry(const head *h, char name, uint64_t address)
{
    uint8_t found, port, hc;
    sc_switch_lookup(&h->here, address, &found, &port, &hc);
    if (found)
        printf("   %c %u/%u\n", name, port, hc);
    else
        printf("   %c unknown\n", name);
}

/* Four live ports, port 0 a host's. */
static void fresh(head *h)
{
    memset(h, 0xEE, sizeof *h);
    h->here.ports = 4;
    h->here.live = 0xF;
    h->here.host = 0x1;
    h->here.limit = 16;
    h->here.salt = 1;
    printf("   fresh: %u\n", sc_switch_clear(&h->here, h->filter, sizeof h->filter));
}

static void told(const char *name, uint8_t n, const head *h, const sc_report *r)
{
    printf("%s %u %c mask %" PRIx64 " L %" PRIu64 " F %" PRIu64 " HC %" PRIu64 " nonce %" PRIu64
           ", next %" PRIu32 "\n",
           name, n, n ? 'R' : (char)r->verdict, r->mask, r->l, r->f, r->hc, r->nonce, h->here.nonce);
    entry(h, 'A', A);
}

static void steps(void)
{
    head h;
    sc_report r;
    uint8_t frame[60], tagged[66];
    size_t length;
    host_frame(frame, B, A);

    fresh(&h);
    told("P1", arrive(&h, 0, frame, sizeof frame, &r), &h, &r);
    memset(h.filter, 0, sizeof h.filter);
    h.here.nonce = 0;
    told("P2", arrive(&h, 0, frame, sizeof frame, &r), &h, &r);
    sc_tag(frame, sizeof frame, true, true, 2, 0, tagged, sizeof tagged, &length);
    told("P3", arrive(&h, 2, tagged, length, &r), &h, &r);

    fresh(&h);
    sc_tag(frame, sizeof frame, true, false, 1, 0, tagged, sizeof tagged, &length);
    told("P4", arrive(&h, 1, tagged, length, &r), &h, &r);
}

/* A call that is refused, and whether all that was lent is as it was. */
static void refused(const char *why, head *h, uint8_t port, size_t frame_length, size_t room)
{
    uint8_t frame[60], out[70];
    head before = *h;
    sc_report r, none;
    host_frame(frame, B, A);
    memset(out, 0xEE, sizeof out);
    memset(&none, 0xEE, sizeof none);
    r = none;
    uint8_t n = sc_switch_step(&h->here, h->filter, sizeof h->filter, port, frame, frame_length, out,
                               room, &r);
    bool kept = memcmp(h, &before, sizeof before) == 0 && memcmp(&r, &none, sizeof r) == 0;
    for (size_t i = 0; i < sizeof out; i++)
        kept = kept && out[i] == 0xEE;
    printf("   %s: %u, %s\n", why, n, kept ? "nothing changed" : "CHANGED");
}

static void refusals(void)
{
    head h;
    printf("refusals\n");
    fresh(&h);
    refused("no such port", &h, 4, 60, 66);
    refused("a short frame", &h, 0, 59, 66);
    refused("no tag on a switch port", &h, 1, 60, 66);
    refused("no room", &h, 0, 60, 65);
    h.here.live = 0x10;
    refused("a mask with a port it hasn't", &h, 0, 60, 66);
}

static void round_trip(void)
{
    uint8_t frame[60], tagged[66], back[60], l, f, hc;
    uint32_t nonce;
    size_t length, plain;
    host_frame(frame, B, A);
    uint8_t there = sc_tag(frame, sizeof frame, false, true, 63, 0xFFFFFF, tagged, sizeof tagged, &length);
    uint8_t home = sc_strip(tagged, length, back, sizeof back, &plain, &l, &f, &hc, &nonce);
    printf("tag %u, %zu bytes; strip %u, %zu bytes, L %u F %u HC %u nonce %" PRIx32 ", %s\n", there,
           length, home, plain, l, f, hc, nonce, memcmp(frame, back, 60) == 0 ? "the same frame" : "ANOTHER");
}

static const uint8_t description[48] = {
    1,
    0, 7, 1, 2, 16, 0, 0, 0, 1,
    0, 7, 1, 2, 16, 0, 0, 0, 2,
    0, 9, 2, 0, 0, 2, 0, 0, 0, 0, 1,
    0, 9, 2, 1, 0, 2, 0, 0, 0, 0, 2,
    0, 5, 3, 0, 1, 1, 1,
};

/* A line of the bench program. */
static void line(unsigned number, char letter, uint8_t n, const sc_event_report *r, const sc_bench *b)
{
    printf("%u %c %u %c %08" PRIx64 " %" PRIu64 "\n", number, letter, n, n ? 'R' : (char)r->verdict,
           n ? 0 : r->received, b->wides.flying);
}

static void whole_run(void)
{
    static sc_network network;
    static sc_bench bench;
    sc_counters counters = {0, 0, 0, 0, 0, 0, 0};
    sc_event_report r;
    uint8_t out[SC_LONGEST_DESCRIPTION];
    size_t end = 0, length = 0;
    uint8_t read = sc_network_read(&network, description, sizeof description, &end);
    uint8_t wrote = sc_network_write(&network, out, sizeof out, &length);
    printf("read %u, %zu bytes; write %u, %s\n", read, end, wrote,
           length == end && memcmp(out, description, length) == 0 ? "the same description" : "ANOTHER");
    printf("%u switches, %u hosts, %u link; fresh %u\n", network.bytes.nswitches,
           network.bytes.nhosts, network.bytes.nlinks, sc_bench_fresh(&network, &bench));
    for (unsigned i = 0; i < 3; i++) {
        uint8_t host = i & 1, to[6];
        put_address(to, host == 0 ? B : A);
        uint8_t n = sc_bench_present(&network, &bench, &counters, host, to, &r);
        line(2 * i + 1, 'I', n, &r, &bench);
        n = sc_bench_take(&network, &bench, &counters, 0, &r);
        line(2 * i + 2, 'T', n, &r, &bench);
    }
    line(7, 'K', sc_bench_set(&network, &bench, &counters, 0, 0, &r), &r, &bench);
    line(8, 'T', sc_bench_take(&network, &bench, &counters, 0, &r), &r, &bench);
    printf("placed %" PRIu64 " taken %" PRIu64 " delivered %" PRIu64 " accepted %" PRIu64 "\n",
           counters.placed, counters.taken, counters.delivered, counters.accepted);
}

int main(void)
{
    steps();
    refusals();
    round_trip();
    whole_run();
    return 0;
}
