/* The archive and the codec by hand on inputs that are refused too: the same refusal, and the same in every buffer. The inputs come of PDUs of the mix, and
 * are the same in every run. */
#include <stdio.h>
#include <string.h>
#include "speed.h"

enum { FILL = 0xa5, SOME = 400, DRAWN = 8, MARGIN = 8, SPOILED = 1000, LONGEST = OCTETS + MARGIN };

static size_t reads[256], writes[256];      /* inputs by refusal */
static size_t inputs, defaults;             /* and contracts that send the default, read */
static int spoil;

/* Whether this kind is judged by hand: every number but those of the other kinds, one that names nothing too. */
static int kind_by_hand(int air, uint32_t kind)
{
    if (air)
        return kind != ADSC_CANCEL_EMERGENCY && kind != ADSC_NONCOMPLIANCE && kind != ADSC_POSITIVE_ACK && kind != ADSC_AIR_ABORT;
    return kind == ADSC_EVENT_CONTRACT || kind == ADSC_PERIODIC_CONTRACT || kind > ADSC_GROUND_ABORT;
}

int by_hand(int air, const uint8_t *octets)
{
    return kind_by_hand(air, air ? octets[0] >> 3 & 15 : octets[0] >> 4 & 7);
}

/* What both gave for one input: 0 the archive, 1 by hand. */
struct answers {
    uint8_t refusal[2];
    uint32_t numbers[2][AIR + MARGIN];
    uint8_t list[2][LIST + MARGIN];
    uint8_t out[2][LONGEST];
    size_t written[2];
};

#define SAME(part) (!memcmp(&a->part[0], &a->part[1], sizeof a->part[0]))

static void judge(struct answers *a, size_t *counts, const char *what, const void *input, size_t octets)
{
    if (++inputs == SPOILED && spoil)
        a->refusal[1] ^= 1;
    if (!SAME(refusal) || !SAME(numbers) || !SAME(list) || !SAME(out) || !SAME(written)) {
        printf("%s ", what);
        for (size_t i = 0; i < octets; i++)
            printf("%02x", ((const uint8_t *)input)[i]);
        printf(": the archive gives %d, by hand %d\n", a->refusal[0], a->refusal[1]);
        stop("an answer differs", NULL);
    }
    counts[a->refusal[0]]++;
}

static void read_both(int air, const uint8_t *octets, size_t length, size_t numbers_length, size_t list_length)
{
    struct answers a;
    memset(&a, FILL, sizeof a);
    a.refusal[0] = air ? adsc_read_air(octets, length, a.numbers[0], numbers_length, a.list[0], list_length)
                       : adsc_read_ground(octets, length, a.numbers[0], numbers_length);
    a.refusal[1] = air ? hand_read_air(octets, length, a.numbers[1], numbers_length, a.list[1], list_length)
                       : hand_read_ground(octets, length, a.numbers[1], numbers_length);
    if (!air && !a.refusal[0] && (octets[0] & 0xfc) == 0x64 && (octets[1] & 7) == 4 && (octets[2] & 0xf8) == 0x20)
        defaults++;
    if (a.refusal[1] != HAND_NOT_MINE || by_hand(air, octets))
        judge(&a, reads, air ? "octets of an aircraft PDU" : "octets of a ground PDU", octets, length);
}

static void write_both(int air, const uint32_t *numbers, size_t numbers_length, const uint8_t *list, size_t list_length, size_t out_length)
{
    struct answers a;
    memset(&a, FILL, sizeof a);
    a.refusal[0] = air ? adsc_write_air(numbers, numbers_length, list, list_length, a.out[0], out_length, &a.written[0])
                       : adsc_write_ground(numbers, numbers_length, a.out[0], out_length, &a.written[0]);
    a.refusal[1] = air ? hand_write_air(numbers, numbers_length, list, list_length, a.out[1], out_length, &a.written[1])
                       : hand_write_ground(numbers, numbers_length, a.out[1], out_length, &a.written[1]);
    if (a.refusal[1] != HAND_NOT_MINE || kind_by_hand(air, numbers_length ? numbers[0] : 0))
        judge(&a, writes, air ? "numbers of an aircraft PDU" : "numbers of a ground PDU", numbers, numbers_length * sizeof *numbers);
    if (!a.refusal[1])
        read_both(air, a.out[1], a.written[1], air ? AIR : GROUND, LIST);
}

/* ---- drawing */

static uint32_t below(uint32_t n)
{
    static uint64_t state = 9705;
    state = state * 6364136223846793005u + 1442695040888963407u;
    return (state >> 33) % n;
}

/* Mostly the usual length, or another one up to it and a little over. */
static size_t length_about(size_t usual)
{
    return below(8) ? usual : below(usual + MARGIN);
}

/* ---- octets */

static void read_octets(const struct pdu *p, const uint8_t *octets, size_t length)
{
    read_both(p->air, octets, length, p->air ? AIR : GROUND, LIST);
}

/* Every prefix, a few octets that follow, and too many. */
static void read_lengths(const struct pdu *p)
{
    uint8_t octets[LONGEST] = {0};
    memcpy(octets, p->octets, p->length);
    for (size_t n = 0; n <= LONGEST; n++)
        if (n < p->length + MARGIN || n > OCTETS - MARGIN)
            read_octets(p, octets, n);
}

static void flip(uint8_t *octets, size_t place)
{
    octets[place / 8] ^= 0x80 >> place % 8;
}

/* Ten ones, as far as the PDU goes. */
static void set_ones(uint8_t *octets, size_t place, size_t end)
{
    for (size_t i = place; i < place + 10 && i < end; i++)
        octets[i / 8] |= 0x80 >> i % 8;
}

/* One more, in the number that ends at this place. */
static void add_one(uint8_t *octets, size_t place)
{
    unsigned sum = octets[place / 8] + (0x80 >> place % 8);
    octets[place / 8] = sum;
    if (sum > 255 && place >= 8)
        add_one(octets, place / 8 * 8 - 1);
}

static void read_bits(const struct pdu *p)
{
    for (size_t place = 0; place < 8 * p->length; place++) {
        struct pdu one = *p, ones = *p, more = *p;
        flip(one.octets, place);
        read_octets(p, one.octets, p->length);
        set_ones(ones.octets, place, 8 * p->length);
        read_octets(p, ones.octets, p->length);
        add_one(more.octets, place);
        read_octets(p, more.octets, p->length);
    }
}

/* Some octets drawn, or all but the first; buffers and input may be short. */
static void read_drawn(const struct pdu *p)
{
    struct pdu q = *p;
    for (uint32_t i = 1 + below(4); i; i--)
        q.octets[below(p->length)] = below(256);
    read_both(p->air, q.octets, length_about(p->length), length_about(p->air ? AIR : GROUND), length_about(LIST));
    for (size_t i = 1; i < OCTETS; i++)
        q.octets[i] = below(256);
    q.octets[0] = p->octets[0] ^ (below(4) ? below(8) : below(256));
    read_octets(p, q.octets, below(40));
}

/* ---- numbers */

/* The ends of the ranges of 01 and 02. */
static const int32_t ends[] = {
    INT32_MIN, -3000, -400, -75, -50, 0, 1, 2, 3, 7, 8, 11, 12, 15, 16, 23, 31, 59, 64, 80, 90, 92, 120, 124, 127, 128, 180, 255, 300, 360, 400, 500, 599,
    700, 1100, 1996, 2000, 2047, 2095, 2200, 3000, 3600, 4000, 10000, 0xffffff, INT32_MAX,
};
enum { ENDS = sizeof ends / sizeof *ends };

static void write_numbers(const struct pdu *p, const uint32_t *numbers)
{
    write_both(p->air, numbers, p->air ? AIR : GROUND, p->list, LIST, OCTETS);
}

/* Each number as each end, and one below and above it. */
static void write_ends(const struct pdu *p)
{
    for (int place = 0; place < (p->air ? AIR : GROUND); place++)
        for (int i = 0; i < ENDS; i++)
            for (uint32_t k = 0; k < 3; k++) {
                struct pdu q = *p;
                q.numbers[place] = (uint32_t)ends[i] + k - 1;
                write_numbers(p, q.numbers);
            }
}

/* Some numbers and an entry drawn; buffers and numbers may be short. */
static void write_drawn(const struct pdu *p)
{
    struct pdu q = *p;
    size_t count = p->air ? AIR : GROUND;
    for (uint32_t i = below(4); i; i--)
        q.numbers[below(count)] = below(4) ? (uint32_t)ends[below(ENDS)] + below(3) - 1 : below(1 << 16);
    if (!below(4))
        q.list[below(LIST)] = below(256);
    write_both(p->air, q.numbers, length_about(count), q.list, length_about(LIST), length_about(p->length));
}

/* The octets of a PDU anew from its numbers; whether it is one. */
static int rewrite(struct pdu *p)
{
    return !(p->air ? adsc_write_air(p->numbers, AIR, p->list, LIST, p->octets, OCTETS, &p->length)
                    : adsc_write_ground(p->numbers, GROUND, p->octets, OCTETS, &p->length));
}

/* Every number as high as it is written, so that one more in any of them is above its range. */
static struct pdu highest(const struct pdu *p)
{
    struct pdu top = *p;
    memset(top.list, 127, LIST);
    for (int place = 1; place < (p->air ? AIR : GROUND); place++)
        for (int i = 0; i < ENDS; i++) {
            struct pdu q = top;
            q.numbers[place] = ends[i];
            if (rewrite(&q))
                top = q;
        }
    return top;
}

/* A contract with an interval of 4 minutes, so that one more is the default, sent. */
static struct pdu next_to_default(const struct pdu *p)
{
    struct pdu q = *p;
    q.numbers[ADSC_G_SCALE] = ADSC_MINUTES;
    q.numbers[ADSC_G_INTERVAL] = 4;
    rewrite(&q);
    return q;
}

void alike(const struct pdu *first, int count, int spoils)
{
    struct pdu near = highest(first);
    size_t octets = 0;
    spoil = spoils;
    read_bits(&near);
    write_ends(&near);
    for (const struct pdu *p = first; p < first + count; p++) {
        for (int i = 0; i < DRAWN; i++) {
            read_drawn(p);
            write_drawn(p);
        }
        octets += p->length;
        if (octets > SOME)
            continue;
        read_lengths(p);
        read_bits(p);
        near = next_to_default(p);
        if (!p->air && p->numbers[ADSC_G_KIND] == ADSC_PERIODIC_CONTRACT)
            read_bits(&near);
    }
}

/* Every answer that 01 has for these PDUs has to have come. */
static void tell(const char *what, const size_t *counts, const uint8_t *due, int n)
{
    printf("%s", what);
    for (int i = 0; i < n; i++) {
        printf(" %d: %zu%s", due[i], counts[due[i]], i < n - 1 ? "," : "\n");
        if (!counts[due[i]])
            stop("an answer never came", NULL);
    }
}

void alike_tell(void)
{
    static const uint8_t read[] = {0, 6, 7, 8, 9, 10, 12, 13, 14, 15, 16}, written[] = {0, 5, 6, 10, 12, 15};
    printf("%zu inputs answered alike by the archive and by hand, %zu of them send 5 minutes\n", inputs, defaults);
    if (!defaults)
        stop("the default was never read", NULL);
    tell("reading by refusal,", reads, read, sizeof read);
    tell("writing by refusal,", writes, written, sizeof written);
}
