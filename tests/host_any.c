/* host_any SEED CALLS [SPOIL]: the functions of libadschost.a on arguments of every kind, from random octets of random lengths to links in use.
 *
 * Every buffer stands against a page that cannot be touched, so that a call that reads too far ends the test. After each call:
 *   - refused: every buffer and what stands round it is as it was; the refusal is one that adsc.h names for the function; 6 is the last of them;
 *   - accepted: nothing but the result's place has changed, the room was enough, the record is taken by the next call, its intervals and seconds are those
 *     of its states, octets and numbers go both ways, a block of the log holds what was appended behind what it had.
 * At the end every function has been accepted, and refused with each number that adsc.h names. SPOIL makes a mistake of its own, which must be found. */
#define _DEFAULT_SOURCE
#include <inttypes.h>
#include <signal.h>
#include <stdarg.h>
#include <stdbool.h>
#include <stdio.h>
#include <stdlib.h>
#include <string.h>
#include <sys/mman.h>
#include <unistd.h>
#include "adsc.h"

enum { GUARD = 64, LONGEST = 200, WINDOW = GUARD + 4 * LONGEST + GUARD, USED = 4, MANY = 9, REFUSALS = 30 };

/* ---- chance */

static uint64_t state;

static uint64_t draw(void)
{
    state ^= state << 13;
    state ^= state >> 7;
    state ^= state << 17;
    return state;
}

static uint32_t chance(uint32_t below)
{
    return (uint32_t)(draw() >> 16) % below;
}

static bool one_in(uint32_t n)
{
    return chance(n) == 0;
}

static void scatter(uint8_t *at, size_t n)
{
    for (size_t i = 0; i < n; i += sizeof state) {
        uint64_t eight = draw();
        memcpy(at + i, &eight, n - i < sizeof eight ? n - i : sizeof eight);
    }
}

static size_t mostly(size_t n)
{
    return one_in(4) ? chance(LONGEST + 1) : n;
}

/* ---- buffers */

struct lent {
    const char *name;
    size_t width;               /* of an element */
    uint8_t *page, *at, *window;
    size_t length, window_octets;
    uint8_t before[WINDOW];     /* the window as it was before the call */
};

static struct lent settings = {.name = "settings", .width = 4}, link_ = {.name = "link", .width = 1}, answer = {.name = "answer", .width = 1},
                   octets = {.name = "octets", .width = 1}, numbers = {.name = "numbers", .width = 4}, list = {.name = "list", .width = 1},
                   out = {.name = "out", .width = 1}, written = {.name = "written", .width = sizeof(size_t)}, block = {.name = "block", .width = 1};
static uint32_t seconds, number;
static uint8_t kind;
static size_t page_octets;

static uint32_t *words(struct lent *b)
{
    return (uint32_t *)(void *)b->at;
}

/* A page between two that cannot be touched. */
static void set_apart(struct lent *b)
{
    uint8_t *all = mmap(NULL, 3 * page_octets, PROT_NONE, MAP_PRIVATE | MAP_ANONYMOUS, -1, 0);
    b->page = all + page_octets;
    if (all == MAP_FAILED || mprotect(b->page, page_octets, PROT_READ | PROT_WRITE) != 0) {
        perror("host_any");
        exit(2);
    }
}

/* Room for so many elements: at the end of the page, at its start or inside, with guard octets where the page goes on. All octets are random. */
static void lend(struct lent *b, size_t length)
{
    size_t n = length * b->width;
    uint8_t *end = b->page + page_octets, *from, *to;
    uint32_t where = chance(3);
    b->length = length;
    b->at = where == 0 ? end - n : where == 1 ? b->page : b->page + 1024 + b->width * chance(8);
    from = where == 1 ? b->at : b->at - GUARD;
    to = where == 0 ? end : b->at + n + GUARD;
    b->window = from;
    b->window_octets = (size_t)(to - from);
    scatter(from, b->window_octets);
}

/* Whether nothing has changed but the first n octets. */
static bool unchanged(const struct lent *b, size_t n)
{
    size_t lead = (size_t)(b->at - b->window);
    return memcmp(b->window, b->before, lead) == 0
        && memcmp(b->at + n, b->before + lead + n, b->window_octets - lead - n) == 0;
}

/* ---- what is lent */

static uint8_t live[ADSC_LINK_OCTETS];      /* a link in use; once it has left IDLE it seldom goes back, so that all states are met */
static bool random_record;                  /* whether this call has random octets for a record */

static void lend_link(bool opens)
{
    uint32_t kind = chance(5);
    random_record = kind == 0 && !opens;
    lend(&link_, kind == 1 ? chance(LONGEST + 1) : ADSC_LINK_OCTETS);
    if (kind >= 2)
        memcpy(link_.at, live, sizeof live);
    if (kind == 2)
        link_.at[chance(sizeof live)] = (uint8_t)chance(one_in(2) ? 6 : 256);
}

static void lend_settings(void)
{
    lend(&settings, mostly(ADSC_TIMERS));
    if (!one_in(4))
        for (size_t i = 0; i < settings.length; i++)
            words(&settings)[i] = chance(20) * chance(20) + 1;
}

/* Any elements of an event contract, none and all of them too. */
static void event_numbers(uint32_t *n)
{
    n[ADSC_G_WHAT] = one_in(8) ? 0 : one_in(4) ? 2 * ADSC_ON_LATERAL_CHANGE - 1 : chance(2 * ADSC_ON_LATERAL_CHANGE);
    n[ADSC_G_LATERAL] = chance(2001);
    n[ADSC_G_RATE] = chance(6001) - 3000;
    n[ADSC_G_CEILING] = chance(10076) - 75;
    n[ADSC_G_FLOOR] = chance(10076) - 75;
    n[ADSC_G_AIR_SPEED] = chance(2);
    n[ADSC_G_AIR_SPEED_CHANGE] = 1 + chance(n[ADSC_G_AIR_SPEED] == ADSC_SPEED_IAS ? 700 : 255);
    n[ADSC_G_GROUND_SPEED] = chance(301);
    n[ADSC_G_HEADING] = 1 + chance(3600);
    n[ADSC_G_EXTENDED_PROFILE] = chance(2);
    n[ADSC_G_EXTENDED_PROFILE_COUNT] = 1 + chance(n[ADSC_G_EXTENDED_PROFILE] == ADSC_PROFILE_WAYPOINTS ? 128 : 80);
    n[ADSC_G_TRACK] = 1 + chance(3600);
    n[ADSC_G_LEVEL] = 1 + chance(500);
}

/* Numbers of a ground PDU, most of them in range. */
static void ground_numbers(uint32_t *n)
{
    memset(n, 0, sizeof(uint32_t[ADSC_GROUND_NUMBERS]));
    n[ADSC_G_KIND] = chance(one_in(20) ? 12 : 8);
    switch (n[ADSC_G_KIND]) {
    case ADSC_CANCEL_CONTRACT: n[ADSC_G_WHAT] = chance(one_in(10) ? 4 : 2); break;
    case ADSC_EVENT_CONTRACT: event_numbers(n); break;
    case ADSC_GROUND_ABORT: n[ADSC_G_WHAT] = chance(8); break;
    default: n[ADSC_G_WHAT] = one_in(8) ? chance(128) : chance(32) * ADSC_HAS_WEATHER;
    }
    n[ADSC_G_SCALE] = chance(2);
    n[ADSC_G_INTERVAL] = one_in(3) ? 5 : 1 + chance(n[ADSC_G_SCALE] == ADSC_MINUTES ? 120 : 59);
    for (int i = ADSC_G_ADDRESS; i <= ADSC_G_WEATHER; i++)
        n[i] = 1 + chance(255);
    if (one_in(8))
        n[chance(ADSC_GROUND_NUMBERS)] = chance(one_in(2) ? 300 : UINT32_MAX);
}

static void report_numbers(uint32_t *n)
{
    static const uint32_t most[ADSC_AIR_NUMBERS] = {0, 0, 0, 0, 0, 2, 91, 60, 600, 2, 181, 60, 600, 0, 0, 0, 0, 2, 24, 60, 60, 8, 2, 2, 1 << 24,
        8, 0, 0, 0, 8, 0, 3, 0, 1101, 0, 16, 301, 0, 0, 16};
    for (int i = 0; i < ADSC_AIR_NUMBERS; i++)
        if (most[i])
            n[i] = chance(most[i]);
    n[ADSC_A_ELEMENTS] = n[ADSC_A_KIND] == ADSC_EMERGENCY_REPORT ? chance(4) : chance(128) & (ADSC_HAS_ADDRESS | ADSC_HAS_GROUND_VECTOR | ADSC_HAS_AIR_VECTOR | ADSC_HAS_WEATHER);
    if (one_in(20))
        n[ADSC_A_ELEMENTS] = chance(128);
    n[ADSC_A_LEVEL] = chance(10076) - 75;
    n[ADSC_A_YEAR] = 1996 + chance(100);
    n[ADSC_A_MONTH] = 1 + chance(12);
    n[ADSC_A_DAY] = 1 + chance(31);
    n[ADSC_A_TRACK] = 1 + chance(3600);
    n[ADSC_A_GROUND_SPEED] = chance(2251) - 50;
    n[ADSC_A_GROUND_RATE] = chance(6001) - 3000;
    n[ADSC_A_HEADING] = 1 + chance(3600);
    n[ADSC_A_MACH] = 500 + chance(3501);
    n[ADSC_A_AIR_RATE] = chance(6001) - 3000;
    n[ADSC_A_WIND_DIRECTION] = 1 + chance(360);
    n[ADSC_A_TEMPERATURE] = chance(801) - 400;
}

/* Numbers of an aircraft PDU, most of them in range. */
static void air_numbers(uint32_t *n)
{
    memset(n, 0, sizeof(uint32_t[ADSC_AIR_NUMBERS]));
    n[ADSC_A_KIND] = chance(one_in(20) ? 12 : 9);
    report_numbers(n);
    switch (n[ADSC_A_KIND]) {
    case ADSC_NEGATIVE_ACK: n[ADSC_A_WHAT] = chance(4); n[ADSC_A_DETAIL] = chance(4); break;
    case ADSC_NONCOMPLIANCE: n[ADSC_A_WHAT] = chance(3); break;
    case ADSC_POSITIVE_ACK: n[ADSC_A_WHAT] = chance(8); break;
    case ADSC_AIR_ABORT: n[ADSC_A_WHAT] = chance(8); break;
    default: n[ADSC_A_WHAT] = chance(2); n[ADSC_A_DETAIL] = chance(12);
    }
    n[ADSC_A_COUNT] = chance(one_in(10) ? 30 : 17);
    if (one_in(8))
        n[chance(ADSC_AIR_NUMBERS)] = chance(one_in(2) ? 300 : UINT32_MAX);
}

static void lend_numbers(bool air)
{
    uint32_t some[ADSC_AIR_NUMBERS];
    size_t n = air ? ADSC_AIR_NUMBERS : ADSC_GROUND_NUMBERS;
    lend(&numbers, mostly(n));
    (air ? air_numbers : ground_numbers)(some);
    if (!one_in(8))
        memcpy(numbers.at, some, sizeof *some * (numbers.length < n ? numbers.length : n));
}

static void lend_list(void)
{
    lend(&list, mostly(ADSC_LIST_OCTETS));
    if (!one_in(4))
        for (size_t i = 0; i < list.length; i++)
            list.at[i] &= 3;
}

/* A written PDU, or nothing where it cannot be written. */
static size_t pdu(bool air, uint8_t *at)
{
    uint32_t n[ADSC_AIR_NUMBERS];
    uint8_t some[ADSC_LIST_OCTETS];
    size_t length = 0;
    scatter(some, sizeof some);
    for (size_t i = 0; i < sizeof some; i++)
        some[i] &= 3;
    (air ? air_numbers : ground_numbers)(n);
    if (air)
        adsc_write_air(n, ADSC_AIR_NUMBERS, some, sizeof some, at, ADSC_PDU_OCTETS, &length);
    else
        adsc_write_ground(n, ADSC_GROUND_NUMBERS, at, ADSC_PDU_OCTETS, &length);
    return length;
}

/* PDUs with what chance seldom meets: the default interval sent, an event contract of nothing, 63 seconds; a list of 17, an element not carried. */
static size_t odd(bool air, uint8_t *at)
{
    static const uint8_t ground[3][3] = {{0x64, 0x04, 0x20}, {0x40, 0}, {0x57, 0xc0}}, aircraft[3][3] = {{0x28, 0x11, 0}, {0x08, 0x40}, {0x14, 0}};
    memcpy(at, (air ? aircraft : ground)[chance(3)], 3);
    return 3;
}

/* Random octets, or a PDU: whole, with a bit changed, cut short, or with octets after it. */
static void lend_octets(bool air)
{
    uint8_t some[2 * LONGEST];
    size_t n = one_in(20) ? odd(air, some) : pdu(air, some);
    scatter(some + n, sizeof some - n);
    if (one_in(4))
        some[chance(n + 1)] ^= (uint8_t)(1 << chance(8));
    if (one_in(4))
        n = one_in(2) ? chance(n + 1) : n + chance(3);
    if (one_in(8))
        n = chance(LONGEST + 1);
    lend(&octets, n);
    if (!one_in(8))
        memcpy(octets.at, some, n);
}

enum { OLD_OCTETS = 36 };                   /* of settings, in a log of before LI1 */

/* A block of an old log: adsc_block_append makes none any more. */
static void old_settings(uint8_t *b)
{
    uint8_t *record = b + adsc_block_first();
    b[5] = 6 + OLD_OCTETS;
    record[5] = OLD_OCTETS;
    memcpy(record + 6, live, OLD_OCTETS);
}

/* A block of the log with some records, most of them such that any link takes them; the first is the settings where there is no link yet. */
static void fill(uint8_t *b, bool first)
{
    uint8_t some[ADSC_KEPT_MOST + 8];
    adsc_block_open(b, ADSC_BLOCK_OCTETS, number < ADSC_BLOCKS_MOST ? number : 0);
    if (first && one_in(4))
        old_settings(b);
    else if (first)
        adsc_block_append(b, ADSC_BLOCK_OCTETS, ADSC_CALL_SETTINGS, 0, live, ADSC_SETTINGS_OCTETS);
    for (uint32_t n = chance(one_in(4) ? 200 : 5); n > 0; n--) {
        scatter(some, sizeof some);
        if (one_in(60))
            adsc_block_append(b, ADSC_BLOCK_OCTETS, ADSC_CALL_DATA, 0, some, chance(sizeof some));
        else
            adsc_block_append(b, ADSC_BLOCK_OCTETS, ADSC_CALL_ELAPSE, one_in(20) ? chance(3) : 0, some, 0);
    }
    if (!one_in(8))
        adsc_block_finish(b, ADSC_BLOCK_OCTETS);
}

static void lend_block(bool first)
{
    uint32_t how = chance(10);
    uint8_t whole[ADSC_BLOCK_OCTETS];
    number = one_in(8) ? chance(UINT32_MAX) : chance(ADSC_BLOCKS_MOST);
    fill(whole, first);
    lend(&block, how == 0 ? chance(2 * LONGEST) : ADSC_BLOCK_OCTETS + (how == 1 ? chance(8) : 0));
    if (how >= 2)                           /* else octets of any kind */
        memcpy(block.at, whole, sizeof whole);
    if (how == 2)
        block.at[one_in(2) ? chance(6) : chance(sizeof whole)] ^= (uint8_t)(1 + chance(255));
    if (how == 3)
        number += 1 + chance(3);
}

/* ---- the functions: what each is lent, how many octets of it an accepted call changes, and its refusals by adsc.h */

enum which {
    OPEN, REQUEST, USER_ABORT, ELAPSE, START_CONFIRM, START_REJECTED, DATA, END_CONFIRM, PEER_ABORT, AIR_ABORT, DOWN,
    BLOCK_OPEN, BLOCK_APPEND, BLOCK_FINISH, BLOCK_PLAY, READ_AIR, READ_GROUND, WRITE_AIR, WRITE_GROUND, FUNCTIONS
};

struct used { struct lent *b; size_t changes; };

static const struct function {
    const char *name;
    struct used used[USED];
    uint8_t refusals[MANY];
} functions[FUNCTIONS] = {
    {"adsc_open", {{&settings, 0}, {&link_, ADSC_LINK_OCTETS}}, {3, 6}},
    {"adsc_request", {{&link_, ADSC_LINK_OCTETS}, {&numbers, 0}, {&answer, ADSC_ANSWER_OCTETS}}, {29, 1, 5, 10, 15, 6}},
    {"adsc_user_abort", {{&link_, ADSC_LINK_OCTETS}, {&answer, ADSC_ANSWER_OCTETS}}, {29, 1, 6}},
    {"adsc_elapse", {{&link_, ADSC_LINK_OCTETS}, {&answer, ADSC_ANSWER_OCTETS}}, {29, 4, 6}},
    {"adsc_start_confirm", {{&link_, ADSC_LINK_OCTETS}, {&octets, 0}, {&answer, ADSC_ANSWER_OCTETS}}, {29, 2, 6}},
    {"adsc_start_rejected", {{&link_, ADSC_LINK_OCTETS}, {&answer, ADSC_ANSWER_OCTETS}}, {29, 2, 6}},
    {"adsc_data", {{&link_, ADSC_LINK_OCTETS}, {&octets, 0}, {&answer, ADSC_ANSWER_OCTETS}}, {29, 2, 6}},
    {"adsc_end_confirm", {{&link_, ADSC_LINK_OCTETS}, {&answer, ADSC_ANSWER_OCTETS}}, {29, 2, 6}},
    {"adsc_peer_abort", {{&link_, ADSC_LINK_OCTETS}, {&answer, ADSC_ANSWER_OCTETS}}, {29, 2, 6}},
    {"adsc_air_abort", {{&link_, ADSC_LINK_OCTETS}, {&octets, 0}, {&answer, ADSC_ANSWER_OCTETS}}, {29, 2, 6}},
    {"adsc_down", {{&link_, ADSC_LINK_OCTETS}, {&answer, ADSC_ANSWER_OCTETS}}, {29, 2, 6}},
    {"adsc_block_open", {{&block, ADSC_BLOCK_OCTETS}}, {5, 6}},
    {"adsc_block_append", {{&block, ADSC_BLOCK_OCTETS}, {&octets, 0}}, {20, 5, 6}},
    {"adsc_block_finish", {{&block, ADSC_BLOCK_OCTETS}}, {20}},
    {"adsc_block_play", {{&link_, ADSC_LINK_OCTETS}, {&block, 0}}, {29, 20, 18, 19}},
    {"adsc_read_air", {{&octets, 0}, {&numbers, 4 * ADSC_AIR_NUMBERS}, {&list, ADSC_LIST_OCTETS}}, {7, 8, 9, 10, 12, 13, 14, 16, 6}},
    {"adsc_read_ground", {{&octets, 0}, {&numbers, 4 * ADSC_GROUND_NUMBERS}}, {7, 8, 9, 10, 13, 14, 15, 16, 6}},
    {"adsc_write_air", {{&numbers, 0}, {&list, 0}, {&out, 0}, {&written, sizeof(size_t)}}, {5, 10, 12, 6}},
    {"adsc_write_ground", {{&numbers, 0}, {&out, 0}, {&written, sizeof(size_t)}}, {5, 10, 15, 6}},
};
#define EACH_USED(u, f) for (const struct used *u = functions[f].used; u < functions[f].used + USED && u->b; u++)

/* Whether the link is one that has no settings yet. */
static bool zeros(void)
{
    static const uint8_t none[ADSC_LINK_OCTETS];
    return link_.length == sizeof none && memcmp(link_.at, none, sizeof none) == 0;
}

static void lend_any_link(enum which f)
{
    lend_link(f == OPEN);
    if (f == BLOCK_PLAY && link_.length == ADSC_LINK_OCTETS && one_in(3)) {
        memset(link_.at, 0, ADSC_LINK_OCTETS);
        random_record = false;
    }
}

static void lend_one(enum which f, struct lent *b)
{
    if (b == &link_)
        lend_any_link(f);
    else if (b == &settings)
        lend_settings();
    else if (b == &octets)
        lend_octets(f != READ_GROUND);
    else if (b == &numbers)
        lend_numbers(f == READ_AIR || f == WRITE_AIR);
    else if (b == &list)
        lend_list();
    else if (b == &answer)
        lend(&answer, mostly(ADSC_ANSWER_OCTETS));
    else if (b == &block)
        lend_block(f == BLOCK_PLAY && zeros());
    else if (b == &out)
        lend(&out, one_in(2) ? chance(LONGEST + 1) : chance(24));
    else
        lend(b, 1);
    memcpy(b->before, b->window, b->window_octets);
}

static void lend_all(enum which f)
{
    random_record = false;
    seconds = one_in(8) ? chance(UINT32_MAX) : chance(100);
    kind = one_in(8) ? (uint8_t)chance(256) : one_in(2) ? ADSC_CALL_DATA : (uint8_t)chance(ADSC_CALL_DOWN + 1);
    if (f == BLOCK_APPEND && kind != ADSC_CALL_ELAPSE && !one_in(8))
        seconds = 0;
    EACH_USED(u, f)
        lend_one(f, u->b);
}

static uint8_t perform(enum which f)
{
    uint8_t *l = link_.at, *a = answer.at, *o = octets.at;
    size_t k = link_.length, m = answer.length, n = octets.length;
    size_t *w = (size_t *)(void *)written.at;
    switch (f) {
    case OPEN: return adsc_open(words(&settings), settings.length, l, k);
    case REQUEST: return adsc_request(l, k, words(&numbers), numbers.length, a, m);
    case USER_ABORT: return adsc_user_abort(l, k, a, m);
    case ELAPSE: return adsc_elapse(l, k, seconds, a, m);
    case START_CONFIRM: return adsc_start_confirm(l, k, o, n, a, m);
    case START_REJECTED: return adsc_start_rejected(l, k, a, m);
    case DATA: return adsc_data(l, k, o, n, a, m);
    case END_CONFIRM: return adsc_end_confirm(l, k, a, m);
    case PEER_ABORT: return adsc_peer_abort(l, k, a, m);
    case AIR_ABORT: return adsc_air_abort(l, k, o, n, a, m);
    case DOWN: return adsc_down(l, k, a, m);
    case BLOCK_OPEN: return adsc_block_open(block.at, block.length, number);
    case BLOCK_APPEND: return adsc_block_append(block.at, block.length, kind, seconds, o, n);
    case BLOCK_FINISH: return adsc_block_finish(block.at, block.length);
    case BLOCK_PLAY: return adsc_block_play(l, k, block.at, block.length, number);
    case READ_AIR: return adsc_read_air(o, n, words(&numbers), numbers.length, list.at, list.length);
    case READ_GROUND: return adsc_read_ground(o, n, words(&numbers), numbers.length);
    case WRITE_AIR: return adsc_write_air(words(&numbers), numbers.length, list.at, list.length, out.at, out.length, w);
    default: return adsc_write_ground(words(&numbers), numbers.length, out.at, out.length, w);
    }
}

/* ---- what must hold */

static uint64_t seed, made, scattered, defaults, old_logs, met[FUNCTIONS][REFUSALS];
static enum which under_way;

static void must(bool holds, enum which f, const char *what, ...)
{
    va_list more;
    if (holds)
        return;
    printf("call %" PRIu64 " of seed %" PRIu64 ", %s: ", made, seed, functions[f].name);
    va_start(more, what);
    vprintf(what, more);
    va_end(more);
    putchar('\n');
    exit(1);
}

static void touched(int signal)
{
    must(signal == 0, under_way, "touches what it was not lent");
}

static void check_refused(enum which f, uint8_t refusal)
{
    must(memchr(functions[f].refusals, refusal, sizeof functions[f].refusals) != NULL, f, "refusal %d is not one of its own", refusal);
    EACH_USED(u, f)
        must(unchanged(u->b, 0), f, "refused with %d, and %s changed", refusal, u->b->name);
}

/* The block as it was before the call, how many octets of data a record keeps, and whether it has room. */
static const uint8_t *block_before(void)
{
    return block.before + (block.at - block.window);
}

static size_t data_kept(void)
{
    return octets.length < ADSC_KEPT_MOST ? octets.length : ADSC_KEPT_MOST;
}

static bool has_room(void)
{
    return block.length == ADSC_BLOCK_OCTETS && adsc_block_end(block_before()) + 6 + data_kept() <= adsc_block_first() + ADSC_PAYLOAD_MOST;
}

/* Where nothing but the room was wrong, it was; and the other way round. What writing needs is known by writing again. */
static void check_room(enum which f, uint8_t refusal)
{
    uint8_t whole[ADSC_PDU_OCTETS];
    size_t need = 0;
    bool enough = true;
    if (f == WRITE_AIR && adsc_write_air(words(&numbers), numbers.length, list.at, list.length, whole, sizeof whole, &need) == ADSC_OK)
        enough = out.length >= need;
    if (f == WRITE_GROUND && adsc_write_ground(words(&numbers), numbers.length, whole, sizeof whole, &need) == ADSC_OK)
        enough = out.length >= need;
    EACH_USED(u, f)
        enough = enough && u->b->length * u->b->width >= u->changes;
    if (f == OPEN)
        enough = link_.length == ADSC_LINK_OCTETS;
    if (f == BLOCK_OPEN)
        enough = block.length == ADSC_BLOCK_OCTETS;
    if (f == BLOCK_APPEND)
        enough = has_room();
    must(refusal != ADSC_OK || enough, f, "accepted without the room");
    must(refusal != ADSC_NO_ROOM || !enough, f, "6 with the room");
}

/* 6 comes last: with the room the same call is accepted. */
static void check_last(enum which f)
{
    EACH_USED(u, f)
        if (u->b == &out)
            lend(&out, ADSC_PDU_OCTETS);
        else if (u->changes > 0 && (u->b != &link_ || f == OPEN))
            lend(u->b, u->changes / u->b->width);
    if (f == BLOCK_APPEND)
        adsc_block_open(block.at, block.length, 0);
    must(perform(f) == ADSC_OK, f, "6, and with the room it is refused too");
}

static void check_accepted(enum which f)
{
    EACH_USED(u, f) {
        size_t changes = u->b == &out ? *(size_t *)(void *)written.at : u->changes;
        must(changes <= u->b->length * u->b->width, f, "%s: more than its room", u->b->name);
        must(unchanged(u->b, changes), f, "%s: changed where the result is not", u->b->name);
    }
}

static void check_answer(enum which f)
{
    size_t n = adsc_answer_actions(answer.at), sent = adsc_answer_sent(answer.at);
    must(n <= ADSC_ACTIONS_MOST && sent <= ADSC_SENT_MOST && adsc_answer_reason(answer.at) <= ADSC_END_NOT_ACCEPTED, f, "an answer out of range");
    for (size_t i = 0; i < n; i++) {
        int a = adsc_answer_action(answer.at, i), t = a - (a >= ADSC_START_TIMER ? ADSC_START_TIMER : ADSC_STOP_TIMER);
        must((a >= ADSC_START_REQUEST && a <= ADSC_LATE) || (t >= 0 && t < ADSC_TIMERS), f, "action %d", a);
    }
    for (size_t i = n; i < ADSC_ACTIONS_MOST; i++)
        must(answer.at[ADSC_ANSWER_ACTIONS + 1 + i] == 0, f, "an action after the last");
    for (size_t i = sent; i < ADSC_SENT_MOST; i++)
        must(adsc_answer_sent_octets(answer.at)[i] == 0, f, "an octet after the PDU");
}

/* As many seconds as a timer may have left, and has when it starts. */
static uint32_t most_left(size_t timer)
{
    return adsc_link_setting(link_.at, timer) + (timer == ADSC_PC2 ? adsc_link_force(link_.at) : 0);
}

/* The intervals that PC's state has, and seconds left that fit; LI1 runs in END, and nowhere else. */
static void check_seconds(enum which f)
{
    uint8_t pc = link_.at[ADSC_LINK_PC];
    uint32_t asked = adsc_link_asked(link_.at), force = adsc_link_force(link_.at);
    must((asked > 0) == (pc == ADSC_PC_START_PENDING || pc == ADSC_PC_PENDING) && asked <= ADSC_INTERVAL_MOST, f, "state %d, asked for %" PRIu32 " s", pc, asked);
    must((force > 0) == (pc >= ADSC_PC_PENDING) && force <= ADSC_INTERVAL_MOST, f, "state %d, %" PRIu32 " s in force", pc, force);
    for (size_t t = 0; t < ADSC_TIMERS; t++)
        must(adsc_link_left(link_.at, t) <= most_left(t), f, "timer %d: %" PRIu32 " s left", (int)t, adsc_link_left(link_.at, t));
    must((adsc_link_left(link_.at, ADSC_LI1) > 0) == (link_.at[ADSC_LINK_LI] == ADSC_LI_END), f, "LI in %d, LI1 has %" PRIu32 " s left", link_.at[ADSC_LINK_LI],
         adsc_link_left(link_.at, ADSC_LI1));
}

/* Late data changes nothing; settings without LI1 give it a day. */
static void check_closing(enum which f)
{
    const uint8_t *was = link_.before + (link_.at - link_.window), *first = block.at + adsc_block_first();
    static const uint8_t none[ADSC_LINK_OCTETS];
    if (f == DATA && was[ADSC_LINK_LI] == ADSC_LI_END)
        must(memcmp(was, link_.at, ADSC_LINK_OCTETS) == 0, f, "late data changes the record");
    if (f == BLOCK_PLAY && memcmp(was, none, sizeof none) == 0 && first[5] == OLD_OCTETS) {
        must(adsc_link_setting(link_.at, ADSC_LI1) == ADSC_SECONDS_MOST, f, "LI1 of an old log is %" PRIu32, adsc_link_setting(link_.at, ADSC_LI1));
        old_logs++;
    }
}

/* What was asked for, and what a start loads. */
static void check_started(enum which f)
{
    const uint32_t *n = words(&numbers);
    if (f == REQUEST && numbers.length > ADSC_G_INTERVAL && n[ADSC_G_KIND] == ADSC_PERIODIC_CONTRACT)
        must(adsc_link_asked(link_.at) == n[ADSC_G_INTERVAL] * (n[ADSC_G_SCALE] == ADSC_MINUTES ? 60 : 1), f, "another interval");
    for (size_t i = 0; i < adsc_answer_actions(answer.at); i++) {
        int t = adsc_answer_action(answer.at, i) - ADSC_START_TIMER;
        must(t < 0 || adsc_link_left(link_.at, (size_t)t) == most_left((size_t)t), f, "timer %d starts with other seconds", t);
        must(t != ADSC_PC2 || adsc_link_due(link_.at) == (int32_t)adsc_link_force(link_.at), f, "a report due in %" PRId32 " s", adsc_link_due(link_.at));
    }
}

/* No time passes: the next call takes the record, and says nothing. */
static void check_record(enum which f)
{
    uint8_t said[ADSC_ANSWER_OCTETS], was[ADSC_LINK_OCTETS];
    memcpy(was, link_.at, sizeof was);
    must(adsc_elapse(link_.at, link_.length, 0, said, sizeof said) == ADSC_OK, f, "the next call refuses the record");
    must(adsc_answer_actions(said) == 0 && memcmp(was, link_.at, sizeof was) == 0, f, "the next call changes the record");
    if (was[ADSC_LINK_LI] != ADSC_LI_IDLE || one_in(16))
        memcpy(live, was, sizeof live);
}

/* The new record of a block that was appended to stands behind those that it had, and every other octet stays. */
static void check_appended(enum which f)
{
    const uint8_t *was = block_before(), *now = block.at;
    size_t at = adsc_block_end(was), next = adsc_record_next(now, at);
    must(adsc_record_kind(now, at) == kind && adsc_record_seconds(now, at) == seconds && adsc_record_length(now, at) == data_kept()
             && memcmp(adsc_record_data(now, at), octets.at, data_kept()) == 0 && next == adsc_block_end(now), f, "another record");
    must(memcmp(now, was, 4) == 0 && memcmp(now + adsc_block_first(), was + adsc_block_first(), at - adsc_block_first()) == 0
             && memcmp(now + next, was + next, ADSC_BLOCK_OCTETS - next) == 0, f, "other octets changed");
}

/* A finished block has the number and the records that it had, and zeros behind; play takes its check. */
static void check_finished(enum which f)
{
    uint8_t fresh[ADSC_LINK_OCTETS] = {0};
    const uint8_t *was = block_before(), *now = block.at;
    size_t end = adsc_block_end(was);
    must(memcmp(now, was, end) == 0, f, "other records");
    for (size_t i = end; i < ADSC_BLOCK_OCTETS - 2; i++)
        must(now[i] == 0, f, "octet %d behind the payload", (int)i);
    must(adsc_block_play(fresh, sizeof fresh, now, ADSC_BLOCK_OCTETS, adsc_block_number(now)) != ADSC_CHECK_WRONG, f, "the check is wrong");
}

static void check_opened(enum which f)
{
    must(adsc_block_number(block.at) == number, f, "another number");
    for (size_t i = 4; i < ADSC_BLOCK_OCTETS; i++)
        must(block.at[i] == 0, f, "octet %d is not zero", (int)i);
}

/* A periodic contract that sends 5 minutes, the default: the interval is the 8 bits behind 8 presence bits. */
static bool sends_default(const uint8_t *at, size_t n)
{
    return n > 2 && (at[0] & 0xfc) == 0x64 && (at[1] & 7) == 4 && (at[2] & 0xf8) == 0x20;
}

/* What was read writes back the same unless the default was sent, and then to the form without it. */
static void check_read(enum which f)
{
    uint8_t back[ADSC_PDU_OCTETS];
    size_t n = 0;
    if (f == READ_GROUND && sends_default(octets.at, octets.length)) {
        defaults++;
        octets.at[0] &= (uint8_t)~4;
        octets.at[1] = (octets.at[1] & 0xf8) | (octets.at[2] & 7);
        memmove(octets.at + 2, octets.at + 3, --octets.length - 2);
    }
    uint8_t refusal = f == READ_AIR ? adsc_write_air(words(&numbers), numbers.length, list.at, list.length, back, sizeof back, &n)
                                    : adsc_write_ground(words(&numbers), numbers.length, back, sizeof back, &n);
    must(refusal == ADSC_OK && n == octets.length && memcmp(back, octets.at, n) == 0, f, "does not write back");
}

/* What was written reads, and what that gives writes the same. */
static void check_written(enum which f)
{
    size_t n = *(size_t *)(void *)written.at;
    lend(&octets, n);
    memcpy(octets.at, out.at, n);
    must(f == WRITE_AIR || !sends_default(octets.at, n), f, "sends the default");
    lend(&numbers, ADSC_AIR_NUMBERS);
    lend(&list, ADSC_LIST_OCTETS);
    enum which reads = f == WRITE_AIR ? READ_AIR : READ_GROUND;
    must(perform(reads) == ADSC_OK, f, "does not read back");
    check_read(reads);
}

/* ---- the run */

static const char *spoil = "";

/* Mistakes that the archive does not make. */
static uint8_t spoilt(enum which f, uint8_t result)
{
    struct lent *b = functions[f].used[0].b;
    if (strcmp(spoil, "octet") == 0 && result != ADSC_OK && b->length > 0)
        b->at[chance(b->length)] ^= 1;
    if (strcmp(spoil, "guard") == 0)
        b->window[b->at == b->window ? b->window_octets - 1 : 0] ^= 1;
    if (strcmp(spoil, "record") == 0 && result == ADSC_OK && b == &link_)
        b->at[ADSC_LINK_LI] = 4;
    if (strcmp(spoil, "interval") == 0 && result == ADSC_OK && b == &link_ && b->at[ADSC_LINK_PC] != ADSC_PC_IDLE)
        b->at[ADSC_LINK_FORCE + 3] ^= 1;
    if (strcmp(spoil, "closing") == 0 && result == ADSC_OK && b == &link_ && b->at[ADSC_LINK_LI] == ADSC_LI_END)
        b->at[ADSC_LINK_LEFT + 4 * ADSC_LI1 + 3] ^= 1;
    if (strcmp(spoil, "block") == 0 && result == ADSC_OK && b == &block)
        b->at[ADSC_BLOCK_OCTETS - 1] ^= 1;
    if (strcmp(spoil, "result") == 0 && result == ADSC_NO_ROOM)
        return ADSC_SCRIPT_LINE;
    if (strcmp(spoil, "room") == 0 && result == ADSC_OK)
        return ADSC_NO_ROOM;
    if (strcmp(spoil, "past") == 0)
        (void)((volatile uint8_t *)b->at)[b->length * b->width];
    return result;
}

/* Any function, or the one that brings a link further. */
static enum which choose(void)
{
    static const enum which due[4][2] = {{REQUEST, REQUEST}, {START_CONFIRM, START_CONFIRM}, {REQUEST, DATA}, {DATA, END_CONFIRM}};
    return one_in(3) ? due[live[ADSC_LINK_LI]][chance(2)] : chance(FUNCTIONS);
}

static void one_call(void)
{
    enum which f = under_way = choose();
    lend_all(f);
    uint8_t result = spoilt(f, perform(f));
    made++;
    must(result < REFUSALS, f, "result %d", result);
    met[f][result]++;
    scattered += random_record;
    must(!random_record || result == ADSC_BAD_RECORD, f, "%d on random octets", result);
    check_room(f, result);
    if (result != ADSC_OK) {
        check_refused(f, result);
        if (result == ADSC_NO_ROOM)
            check_last(f);
        return;
    }
    check_accepted(f);
    if (f > OPEN && f <= DOWN) {
        check_answer(f);
        check_started(f);
    }
    if (f <= DOWN || (f == BLOCK_PLAY && !zeros())) {
        check_seconds(f);
        check_closing(f);
        check_record(f);
    }
    if (f == BLOCK_OPEN)
        check_opened(f);
    if (f == BLOCK_APPEND)
        check_appended(f);
    if (f == BLOCK_FINISH)
        check_finished(f);
    if (f == READ_AIR || f == READ_GROUND)
        check_read(f);
    if (f >= WRITE_AIR)
        check_written(f);
}

/* How often each result came, and that each came. */
static void tell(void)
{
    uint64_t accepted = 0;
    for (int f = 0; f < FUNCTIONS; f++) {
        accepted += met[f][0];
        printf("%-20s accepted %" PRIu64, functions[f].name, met[f][0]);
        for (const uint8_t *r = functions[f].refusals; r < functions[f].refusals + MANY && *r; r++)
            printf(", %d %" PRIu64, *r, met[f][*r]);
        putchar('\n');
    }
    for (int f = 0; f < FUNCTIONS; f++) {
        must(met[f][0] > 0, f, "never accepted");
        for (const uint8_t *r = functions[f].refusals; r < functions[f].refusals + MANY && *r; r++)
            must(met[f][*r] > 0, f, "never refused with %d", *r);
    }
    must(defaults > 0, READ_GROUND, "never read the default");
    must(old_logs > 0, BLOCK_PLAY, "never played settings of before LI1");
    printf("seed %" PRIu64 ", calls %" PRIu64 ", accepted %" PRIu64 ", faults 0; on records of %d random octets %" PRIu64 ", each 29; the default sent %" PRIu64
           ", settings without LI1 %" PRIu64 "\n", seed, made, accepted, ADSC_LINK_OCTETS, scattered, defaults, old_logs);
}

int main(int n, char **words)
{
    struct lent *all[] = {&settings, &link_, &answer, &octets, &numbers, &list, &out, &written, &block};
    if (n < 3) {
        fprintf(stderr, "host_any SEED CALLS [octet|guard|record|interval|closing|block|result|room|past]\n");
        return 2;
    }
    seed = strtoull(words[1], NULL, 10);
    state = seed * 2654435761 + 88172645463325252;
    spoil = n > 3 ? words[3] : "";
    page_octets = (size_t)sysconf(_SC_PAGESIZE);
    for (size_t i = 0; i < sizeof all / sizeof *all; i++)
        set_apart(all[i]);
    signal(SIGSEGV, touched);
    signal(SIGBUS, touched);
    for (uint64_t calls = strtoull(words[2], NULL, 10); made < calls;)
        one_call();
    tell();
    return 0;
}
