/* drive MODE MIX [WORD]: asn1c's unaligned PER code, the archive and the codec by hand in one process, on the same PDUs.
 * First all read and write every PDU, and what they give is compared. Then, by MODE:
 *   check   nothing more
 *   hand    the archive and the codec by hand on inputs that are refused too
 *   count   each operation once over each group, between magic system calls that cut.c sees
 *   time    the same many times in turn: the median, in nanoseconds a call
 *   stack   the octets of stack that its deepest call takes
 * Answers are lines `group|operation|calls|value`; the value of a count is the tag of its cut.
 * WORD: alters one thing, which has to stop the driver: spoil-number, spoil-entry and spoil-octet what the archive gave, spoil-hand a number that was read
 * by hand, spoil-refusal a refusal in mode hand. */
#include <stdio.h>
#include <stdlib.h>
#include <string.h>
#include <sys/syscall.h>
#include <time.h>
#include <unistd.h>
#include "speed.h"

enum { PDUS = 4000, GROUPS = 20, WORKS = 200, REPEATS = 101, FILL = 0xa5, MAGIC = 0x5eed };

static struct pdu pdus[PDUS];
static struct group { char name[64]; int first, count, by_hand; } groups[GROUPS];
static int pdu_count, group_count;
static const char *spoil = "";

_Noreturn void stop(const char *what, const struct pdu *p)
{
    printf("drive: %s", what);
    if (p)
        printf(": PDU %d, ", (int)(p - pdus));
    for (size_t i = 0; p && i < p->length; i++)
        printf("%02x", p->octets[i]);
    puts("");
    exit(1);
}

/* The operations that are compared. */

static asn_TYPE_descriptor_t *type(const struct pdu *p)
{
    return p->air ? &asn_DEF_Aircraft : &asn_DEF_Ground;
}

static void nothing(struct pdu *p)
{
    (void)p;
}

/* Fetches the PDU, so that what comes next finds it as near as what follows. */
static void touch(struct pdu *p)
{
    volatile uint8_t *octets = (uint8_t *)p;
    for (size_t i = 0; i < sizeof *p; i += 32)
        octets[i] = octets[i];
}

static void their_read(struct pdu *p)
{
    if (uper_decode(NULL, type(p), &p->theirs, p->octets, p->length, 0, 0).code != RC_OK)
        stop("asn1c does not read", p);
}

static void their_check(struct pdu *p)
{
    if (asn_check_constraints(type(p), p->theirs, NULL, NULL))
        stop("asn1c finds a value out of range", p);
}

static void their_write(struct pdu *p)
{
    p->written = (uper_encode_to_buffer(type(p), p->theirs, p->out, OCTETS).encoded + 7) / 8;
}

static void their_free(struct pdu *p)
{
    ASN_STRUCT_FREE(*type(p), p->theirs);
    p->theirs = NULL;
}

static void our_read(struct pdu *p)
{
    uint8_t refusal = p->air ? adsc_read_air(p->octets, p->length, p->numbers, AIR, p->list, LIST)
                             : adsc_read_ground(p->octets, p->length, p->numbers, GROUND);
    if (refusal)
        stop("the archive does not read", p);
}

static void our_write(struct pdu *p)
{
    uint8_t refusal = p->air ? adsc_write_air(p->numbers, AIR, p->list, LIST, p->out, OCTETS, &p->written)
                             : adsc_write_ground(p->numbers, GROUND, p->out, OCTETS, &p->written);
    if (refusal)
        stop("the archive does not write", p);
}

static void hand_read(struct pdu *p)
{
    uint8_t refusal = p->air ? hand_read_air(p->octets, p->length, p->numbers, AIR, p->list, LIST)
                             : hand_read_ground(p->octets, p->length, p->numbers, GROUND);
    if (refusal)
        stop("the codec by hand does not read", p);
}

static void hand_write(struct pdu *p)
{
    uint8_t refusal = p->air ? hand_write_air(p->numbers, AIR, p->list, LIST, p->out, OCTETS, &p->written)
                             : hand_write_ground(p->numbers, GROUND, p->out, OCTETS, &p->written);
    if (refusal)
        stop("the codec by hand does not write", p);
}

static const struct op ops[] = {
    {"nothing", nothing}, {"their read", their_read}, {"their check", their_check}, {"their write", their_write},
    {"their free", their_free}, {"touch", touch}, {"our read", our_read}, {"our write", our_write}, {"hand read", hand_read}, {"hand write", hand_write},
};
enum { OPS = sizeof ops / sizeof *ops, HAND_OPS = 2 };      /* those by hand stand last: some groups have none */

/* The mix. */

static void take_octets(const char *hex, struct pdu *p)
{
    unsigned octet;
    for (; p->length < OCTETS && sscanf(hex, "%2x", &octet) == 1; hex += 2)
        p->octets[p->length++] = octet;
}

static void load(const char *mix)
{
    static char line[1000], hex[1000], family[16];
    FILE *f = fopen(mix, "r");
    if (!f)
        stop("no mix", NULL);
    while (fgets(line, sizeof line, f)) {
        if (sscanf(line, "# %63[^\n]", groups[group_count].name) == 1) {
            groups[group_count++].first = pdu_count;
        } else if (sscanf(line, "%15s %999s", family, hex) == 2) {
            pdus[pdu_count].air = !strcmp(family, "air");
            take_octets(hex, &pdus[pdu_count++]);
            groups[group_count - 1].count++;
        }
        if (group_count == GROUPS || pdu_count == PDUS)
            stop("too large a mix", NULL);
    }
    fclose(f);
}

/* The comparison. */

static int spoils(const char *word, const struct pdu *p)
{
    return p == pdus && !strcmp(spoil, word);
}

static void same_octets(const char *who, const struct pdu *p)
{
    if (p->written != p->length || memcmp(p->out, p->octets, p->length))
        stop(who, p);
}

static void same_numbers(struct pdu *p)
{
    uint32_t want[AIR] = {0};
    uint8_t list[LIST] = {0};
    if (p->air)
        flat_air(p->theirs, want, list);
    else
        flat_ground(p->theirs, want);
    if (spoils("spoil-number", p))
        p->numbers[AIR - 1] ^= 1;
    if (spoils("spoil-entry", p))
        p->list[LIST - 1] ^= 1;
    for (int i = 0; i < (p->air ? AIR : GROUND); i++)
        if (p->numbers[i] != want[i]) {
            printf("number %d is %d, asn1c has %d\n", i, (int)p->numbers[i], (int)want[i]);
            stop("a number differs", p);
        }
    if (p->air && memcmp(p->list, list, LIST))
        stop("the list differs", p);
}

/* The codec by hand against the archive, which has read and written this PDU. Whether it has one of this kind. */
static int check_hand(const struct pdu *p)
{
    struct pdu q = *p;
    memset(q.numbers, FILL, sizeof q.numbers);
    memset(q.list, FILL, LIST);
    memset(q.out, FILL, OCTETS);
    if (!by_hand(p->air, p->octets))
        return 0;
    hand_read(&q);
    if (spoils("spoil-hand", p))
        q.numbers[AIR - 1] ^= 1;
    if (memcmp(q.numbers, p->numbers, sizeof q.numbers) || memcmp(q.list, p->list, LIST))
        stop("what is read by hand differs", p);
    hand_write(&q);
    if (q.written != p->written || memcmp(q.out, p->out, OCTETS))
        stop("other octets are written by hand", p);
    return 1;
}

/* Reads and writes a PDU by all three; whether by hand too. */
static int check(struct pdu *p)
{
    their_read(p);
    their_check(p);
    memset(p->numbers, FILL, sizeof p->numbers);
    memset(p->list, FILL, LIST);
    our_read(p);
    same_numbers(p);
    memset(p->out, FILL, OCTETS);
    their_write(p);
    same_octets("asn1c writes other octets", p);
    memset(p->out, FILL, OCTETS);
    our_write(p);
    if (spoils("spoil-octet", p))
        p->out[p->length - 1] ^= 1;
    same_octets("the archive writes other octets", p);
    for (size_t i = p->length; i < OCTETS; i++)
        if (p->out[i] != FILL)
            stop("the archive writes past the end", p);
    their_free(p);
    return check_hand(p);
}

/* What is measured: each operation over each group. */

static struct work { const char *group; struct op op; struct pdu *first; int calls; double sample[REPEATS]; } works[WORKS];
static int work_count;

static void add(const char *group, const struct op *op, int n, struct pdu *first, int calls)
{
    for (int i = 0; i < n; i++)
        works[work_count++] = (struct work){.group = group, .op = op[i], .first = first, .calls = calls};
}

static void pass(const struct work *w)
{
    for (int i = 0; i < w->calls; i++)
        w->op.run(w->first + i);
}

static void tell(const struct work *w, double value)
{
    printf("%s|%s|%d|%.1f\n", w->group, w->op.name, w->calls, value);
}

static void count(void)
{
    for (int i = 0; i < work_count; i++) {
        syscall(MAGIC, 0);
        pass(&works[i]);
        syscall(MAGIC, i + 1);
        tell(&works[i], i + 1);
    }
}

static double now(void)
{
    struct timespec t;
    clock_gettime(CLOCK_MONOTONIC, &t);
    return t.tv_sec * 1e9 + t.tv_nsec;
}

static int order(const void *a, const void *b)
{
    double x = *(const double *)a, y = *(const double *)b;
    return (x > y) - (x < y);
}

static void times(void)
{
    for (int r = 0; r < REPEATS; r++)
        for (struct work *w = works; w < works + work_count; w++) {
            double start = now();
            pass(w);
            w->sample[r] = (now() - start) / w->calls;
        }
    for (struct work *w = works; w < works + work_count; w++) {
        qsort(w->sample, REPEATS, sizeof *w->sample, order);
        tell(w, w->sample[REPEATS / 2]);
    }
}

static void stacks(void)
{
    for (struct work *w = works; w < works + work_count; w++) {
        size_t deepest = 0;
        for (int i = 0; i < w->calls; i++) {
            size_t n = stack_of(w->op.run, w->first + i);
            deepest = n > deepest ? n : deepest;
        }
        tell(w, deepest);
    }
}

int main(int argc, char **argv)
{
    int by_hand = 0;
    if (argc < 3)
        stop("usage: drive check|hand|count|time|stack MIX [WORD]", NULL);
    if (argc > 3)
        spoil = argv[3];
    load(argv[2]);
    for (struct group *g = groups; g < groups + group_count; g++) {
        for (int i = 0; i < g->count; i++)
            g->by_hand += check(&pdus[g->first + i]);
        by_hand += g->by_hand;
        add(g->name, ops, g->by_hand == g->count ? OPS : OPS - HAND_OPS, pdus + g->first, g->count);
    }
    link_ready();
    add("link", link_ops, LINK_OPS, pdus, 100);
    switch (argv[1][1]) {
    case 'a':
        for (struct group *g = groups; g < groups + group_count; g++)
            if (g->by_hand == g->count)
                alike(pdus + g->first, g->count, !strcmp(spoil, "spoil-refusal"));
        alike_tell();
        break;
    case 'o': count(); break;
    case 'i': times(); break;
    case 't': stacks(); break;
    default: printf("%d PDUs read and written alike by both, %d of them by hand too\n", pdu_count, by_hand);
    }
    return 0;
}
