/* Reports, negative acks, event and periodic contracts by hand, from 01 and 02 (L1, L5, L7), as one would write them in C for speed: the archive's second peer. Arguments,
 * numbers, refusals and their order are those of adsc.h. A PDU of another kind is HAND_NOT_MINE, once its index is read or its kind is looked at. For gcc, and
 * for processors that have the lowest octet first, as x86-64. */
#include <stdbool.h>
#include <string.h>
#include "hand.h"

/* Each format stands here once. All of it is compiled into the four calls, where `writing` is constant: nothing is left there of the other way. */
#define INLINE static inline __attribute__((always_inline))

struct coder {
    bool writing;
    uint8_t refusal;            /* where a function gives false */
    unsigned held;
    uint64_t bits;              /* reading: the highest `held` are the next to read; writing: the lowest `held`, under 32, are not yet on the sheet */
    const uint8_t *next, *end;  /* reading: the octets that are still to come */
    uint8_t *sheet;             /* writing: where the next octets go */
};

INLINE bool refuse(struct coder *c, uint8_t refusal)
{
    c->refusal = refusal;
    return false;
}

/* At least 56 bits, or all that are left. Of an octet that does not fit whole the upper bits are there already: they come again with it, and are the same. */
INLINE void refill(struct coder *c)
{
    uint64_t eight;
    if (c->end - c->next >= 8) {
        memcpy(&eight, c->next, 8);
        c->bits |= __builtin_bswap64(eight) >> c->held;
        c->next += (63 - c->held) / 8;
        c->held |= 56;
    } else {
        for (; c->held <= 56 && c->next < c->end; c->held += 8)
            c->bits |= (uint64_t)*c->next++ << (56 - c->held);
    }
}

/* The next 1 to 56 bits. */
INLINE bool take(struct coder *c, unsigned width, uint64_t *v)
{
    if (c->held < width)
        refill(c);
    if (c->held < width)
        return refuse(c, ADSC_CUT_SHORT);
    *v = c->bits >> (64 - width);
    c->bits <<= width;
    c->held -= width;
    return true;
}

/* Up to 32 bits. */
INLINE bool put(struct coder *c, unsigned width, uint32_t v)
{
    c->bits = c->bits << width | v;
    c->held += width;
    if (c->held >= 32) {
        c->held -= 32;
        uint32_t four = __builtin_bswap32(c->bits >> c->held);
        memcpy(c->sheet, &four, 4);
        c->sheet += 4;
    }
    return true;
}

/* A number of lo..hi, both in two's complement, as what it is above lo, in the fewest bits that hold hi - lo. */
INLINE bool number(struct coder *c, uint32_t *n, uint32_t lo, uint32_t hi)
{
    unsigned width = 32 - __builtin_clz(hi - lo);
    uint64_t v;
    if (c->writing)
        return *n - lo <= hi - lo ? put(c, width, *n - lo) : refuse(c, ADSC_OUT_OF_RANGE);
    if (!take(c, width, &v))
        return false;
    *n = v + lo;
    return v <= hi - lo || refuse(c, ADSC_ABOVE_RANGE);
}

INLINE bool number_if(struct coder *c, uint32_t present, uint32_t *n, uint32_t lo, uint32_t hi)
{
    return !present || number(c, n, lo, hi);
}

INLINE bool extension(struct coder *c)
{
    uint64_t v;
    return c->writing ? put(c, 1, 0) : take(c, 1, &v) && (!v || refuse(c, ADSC_EXTENSION_SET));
}

/* Presence bits. */
INLINE bool mask(struct coder *c, uint32_t *n, uint32_t all, uint32_t carried)
{
    return number(c, n, 0, all) && (!(*n & ~carried) || refuse(c, ADSC_NOT_CARRIED));
}

INLINE bool angle(struct coder *c, uint32_t *n, uint32_t degrees)
{
    return number(c, n, 0, 1) && number(c, n + 1, 0, degrees) && number(c, n + 2, 0, 59) && number(c, n + 3, 0, 599);
}

/* Position, time, figure of merit. */
INLINE bool fix(struct coder *c, uint32_t *n)
{
    return angle(c, n + ADSC_A_SOUTH, 90) && angle(c, n + ADSC_A_WEST, 180) && number(c, n + ADSC_A_LEVEL, -75, 10000)
        && number(c, n + ADSC_A_YEAR, 1996, 2095) && number(c, n + ADSC_A_MONTH, 1, 12) && number(c, n + ADSC_A_DAY, 1, 31)
        && number(c, n + ADSC_A_HAS_SECONDS, 0, 1) && number(c, n + ADSC_A_HOURS, 0, 23) && number(c, n + ADSC_A_MINUTES, 0, 59)
        && number_if(c, n[ADSC_A_HAS_SECONDS], n + ADSC_A_SECONDS, 0, 59)
        && number(c, n + ADSC_A_ACCURACY, 0, 7) && number(c, n + ADSC_A_UNITS, 0, 1) && number(c, n + ADSC_A_AVOIDANCE, 0, 1);
}

INLINE bool ground_vector(struct coder *c, uint32_t *n)
{
    uint32_t *parts = n + ADSC_A_GROUND_PARTS;
    return mask(c, parts, 7, 7)
        && number_if(c, *parts & ADSC_HAS_TRACK, n + ADSC_A_TRACK, 1, 3600)
        && number_if(c, *parts & ADSC_HAS_GROUND_SPEED, n + ADSC_A_GROUND_SPEED, -50, 2200)
        && number_if(c, *parts & ADSC_HAS_GROUND_RATE, n + ADSC_A_GROUND_RATE, -3000, 3000);
}

INLINE bool air_speed(struct coder *c, uint32_t *n)
{
    uint32_t *which = n + ADSC_A_AIR_SPEED;
    return number(c, which, 0, 2)
        && number_if(c, *which != ADSC_SPEED_IAS, n + ADSC_A_MACH, 500, 4000)
        && number_if(c, *which != ADSC_SPEED_MACH, n + ADSC_A_IAS, 0, 1100);
}

INLINE bool air_vector(struct coder *c, uint32_t *n)
{
    uint32_t *parts = n + ADSC_A_AIR_PARTS;
    return mask(c, parts, 7, 7)
        && number_if(c, *parts & ADSC_HAS_HEADING, n + ADSC_A_HEADING, 1, 3600)
        && (!(*parts & ADSC_HAS_AIR_SPEED) || air_speed(c, n))
        && number_if(c, *parts & ADSC_HAS_AIR_RATE, n + ADSC_A_AIR_RATE, -3000, 3000);
}

INLINE bool weather(struct coder *c, uint32_t *n)
{
    uint32_t *parts = n + ADSC_A_WEATHER_PARTS;
    return mask(c, parts, 15, 15)
        && number_if(c, *parts & ADSC_HAS_WIND_SPEED, n + ADSC_A_WIND_SPEED, 0, 300)
        && number_if(c, *parts & ADSC_HAS_WIND_DIRECTION, n + ADSC_A_WIND_DIRECTION, 1, 360)
        && number_if(c, *parts & ADSC_HAS_TEMPERATURE, n + ADSC_A_TEMPERATURE, -400, 400)
        && number_if(c, *parts & ADSC_HAS_TURBULENCE, n + ADSC_A_TURBULENCE, 0, 15);
}

/* The four kinds of report, which differ up to the presence bits. Those of an emergency report are at most 3: no air vector and no weather. */
INLINE bool report(struct coder *c, uint32_t *n)
{
    enum { CARRIED = ADSC_HAS_ADDRESS | ADSC_HAS_GROUND_VECTOR | ADSC_HAS_AIR_VECTOR | ADSC_HAS_WEATHER };
    uint32_t *elements = n + ADSC_A_ELEMENTS;
    bool urgent = n[ADSC_A_KIND] == ADSC_EMERGENCY_REPORT, event = n[ADSC_A_KIND] == ADSC_EVENT_REPORT;
    return extension(c) && number(c, n + ADSC_A_WHAT, 0, 1)
        && (!event || (extension(c) && number(c, n + ADSC_A_DETAIL, 0, 11)))
        && (urgent ? mask(c, elements, 3, 3) : extension(c) && mask(c, elements, 127, CARRIED))
        && fix(c, n)
        && number_if(c, *elements & (urgent ? ADSC_URGENT_HAS_ADDRESS : ADSC_HAS_ADDRESS), n + ADSC_A_ADDRESS, 0, 0xffffff)
        && (!(*elements & (urgent ? ADSC_URGENT_HAS_GROUND_VECTOR : ADSC_HAS_GROUND_VECTOR)) || ground_vector(c, n))
        && (!(*elements & ADSC_HAS_AIR_VECTOR) || air_vector(c, n))
        && (!(*elements & ADSC_HAS_WEATHER) || weather(c, n));
}

/* Eight characters of 7 bits, in one piece. */
INLINE bool name(struct coder *c, uint8_t *octets)
{
    uint64_t v = 0;
    uint8_t ones = 0;
    if (!c->writing) {
        if (!take(c, 56, &v))
            return false;
        for (int i = 0; i < 8; i++)
            octets[i] = v >> (49 - 7 * i) & 127;
        return true;
    }
    for (int i = 0; i < 8; i++) {
        v = v << 7 | octets[i];
        ones |= octets[i];
    }
    return ones < 128 ? put(c, 28, v >> 28) && put(c, 28, v & 0xfffffff) : refuse(c, ADSC_OUT_OF_RANGE);
}

/* Every count over 16 is 12, one to write too. */
INLINE bool names(struct coder *c, uint32_t *count, uint8_t *list)
{
    if (!(c->writing ? put(c, 8, *count) : number(c, count, 0, 255)))
        return false;
    if (*count > 16)
        return refuse(c, ADSC_LIST_OVER);
    for (uint8_t *at = list; at < list + 8 * *count; at += 8)
        if (!name(c, at))
            return false;
    return true;
}

INLINE bool negative_ack(struct coder *c, uint32_t *n, uint8_t *list)
{
    return extension(c) && number(c, n + ADSC_A_WHAT, 0, 7) && extension(c) && number(c, n + ADSC_A_DETAIL, 0, 3)
        && (n[ADSC_A_DETAIL] != ADSC_CAPACITY_EXCEEDED || names(c, n + ADSC_A_COUNT, list));
}

INLINE bool air(struct coder *c, uint32_t *n, uint8_t *list)
{
    if (!extension(c) || !number(c, n + ADSC_A_KIND, 0, 8))
        return false;
    switch (n[ADSC_A_KIND]) {
    case ADSC_DEMAND_REPORT: case ADSC_EMERGENCY_REPORT: case ADSC_EVENT_REPORT: case ADSC_PERIODIC_REPORT: return report(c, n);
    case ADSC_NEGATIVE_ACK: return negative_ack(c, n, list);
    default: return refuse(c, HAND_NOT_MINE);
    }
}

/* A number of two kinds, each from 1 on. */
INLINE bool either(struct coder *c, uint32_t *which, uint32_t *n, uint32_t first, uint32_t second)
{
    return number(c, which, 0, 1) && (*which ? number(c, n, 1, second) : number(c, n, 1, first));
}

INLINE bool level_range(struct coder *c, uint32_t *n)
{
    return number(c, n + ADSC_G_CEILING, -75, 10000) && number(c, n + ADSC_G_FLOOR, -75, 10000);
}

INLINE bool event_contract(struct coder *c, uint32_t *n)
{
    uint32_t *elements = n + ADSC_G_WHAT;
    return extension(c) && mask(c, elements, 2047, 2047) && (*elements || refuse(c, ADSC_NO_ELEMENT))
        && number_if(c, *elements & ADSC_ON_LATERAL_CHANGE, n + ADSC_G_LATERAL, 0, 2000)
        && number_if(c, *elements & ADSC_ON_RATE_CHANGE, n + ADSC_G_RATE, -3000, 3000)
        && (!(*elements & ADSC_ON_LEVEL_RANGE) || level_range(c, n))
        && (!(*elements & ADSC_ON_AIR_SPEED_CHANGE) || either(c, n + ADSC_G_AIR_SPEED, n + ADSC_G_AIR_SPEED_CHANGE, 255, 700))
        && number_if(c, *elements & ADSC_ON_GROUND_SPEED_CHANGE, n + ADSC_G_GROUND_SPEED, 0, 300)
        && number_if(c, *elements & ADSC_ON_HEADING_CHANGE, n + ADSC_G_HEADING, 1, 3600)
        && (!(*elements & ADSC_ON_PROFILE_CHANGE) || either(c, n + ADSC_G_EXTENDED_PROFILE, n + ADSC_G_EXTENDED_PROFILE_COUNT, 80, 128))
        && number_if(c, *elements & ADSC_ON_TRACK_CHANGE, n + ADSC_G_TRACK, 1, 3600)
        && number_if(c, *elements & ADSC_ON_LEVEL_CHANGE, n + ADSC_G_LEVEL, 1, 500);
}

/* An interval of 5 minutes is never written; one that is sent is read (02, L5). */
INLINE bool periodic_contract(struct coder *c, uint32_t *n)
{
    enum { CARRIED = ADSC_HAS_ADDRESS | ADSC_HAS_PROFILE | ADSC_HAS_GROUND_VECTOR | ADSC_HAS_AIR_VECTOR | ADSC_HAS_WEATHER };
    uint32_t *scale = n + ADSC_G_SCALE, *interval = n + ADSC_G_INTERVAL, *elements = n + ADSC_G_WHAT;
    uint32_t sent = *scale != ADSC_MINUTES || *interval != 5;
    if (!extension(c) || !number(c, &sent, 0, 1) || !mask(c, elements, 127, CARRIED))
        return false;
    if (sent) {
        if (!number(c, scale, 0, 1) || !(*scale == ADSC_MINUTES ? number(c, interval, 1, 120) : number(c, interval, 1, 59)))
            return false;
    } else if (!c->writing) {
        *scale = ADSC_MINUTES;
        *interval = 5;
    }
    return number_if(c, *elements & ADSC_HAS_ADDRESS, n + ADSC_G_ADDRESS, 1, 255)
        && number_if(c, *elements & ADSC_HAS_PROFILE, n + ADSC_G_PROFILE, 1, 255)
        && number_if(c, *elements & ADSC_HAS_GROUND_VECTOR, n + ADSC_G_GROUND_VECTOR, 1, 255)
        && number_if(c, *elements & ADSC_HAS_AIR_VECTOR, n + ADSC_G_AIR_VECTOR, 1, 255)
        && number_if(c, *elements & ADSC_HAS_WEATHER, n + ADSC_G_WEATHER, 1, 255);
}

INLINE bool ground(struct coder *c, uint32_t *n)
{
    if (!extension(c) || !number(c, n + ADSC_G_KIND, 0, 7))
        return false;
    switch (n[ADSC_G_KIND]) {
    case ADSC_EVENT_CONTRACT: return event_contract(c, n);
    case ADSC_PERIODIC_CONTRACT: return periodic_contract(c, n);
    default: return refuse(c, HAND_NOT_MINE);
    }
}

/* ---- the calls */

/* In blocks: gcc -O2 makes string instructions of longer ones, and three of them take as long as the rest of a report. */
enum { BLOCK = 32 };

INLINE void clear(void *to, size_t octets)
{
    for (size_t i = 0; i < octets; i += BLOCK)
        memset((char *)to + i, 0, BLOCK);
}

INLINE void copy(void *to, const void *from, size_t octets)
{
    for (size_t i = 0; i < octets; i += BLOCK)
        memcpy((char *)to + i, (const char *)from + i, BLOCK);
}

/* The filling, and that nothing follows. */
INLINE bool finish(struct coder *c)
{
    unsigned filling = c->held % 8;
    uint64_t v;
    if (filling && take(c, filling, &v) && v)
        return refuse(c, ADSC_FILLING);
    return (!c->held && c->next == c->end) || refuse(c, ADSC_OCTETS_AFTER);
}

uint8_t hand_read_air(const uint8_t *octets, size_t octets_length, uint32_t *numbers, size_t numbers_length, uint8_t *list, size_t list_length)
{
    struct coder c = {.next = octets, .end = octets + octets_length};
    uint32_t n[ADSC_AIR_NUMBERS];
    uint8_t entries[ADSC_LIST_OCTETS];
    clear(n, sizeof n);
    clear(entries, sizeof entries);
    if (octets_length > ADSC_PDU_OCTETS)
        return ADSC_INPUT_OVER;
    if (!air(&c, n, entries) || !finish(&c))
        return c.refusal;
    if (numbers_length < ADSC_AIR_NUMBERS || list_length < ADSC_LIST_OCTETS)
        return ADSC_NO_ROOM;
    copy(numbers, n, sizeof n);
    copy(list, entries, sizeof entries);
    return ADSC_OK;
}

uint8_t hand_read_ground(const uint8_t *octets, size_t octets_length, uint32_t *numbers, size_t numbers_length)
{
    enum { REST = 2 * BLOCK / sizeof *numbers };    /* the numbers from here on fill no block */
    struct coder c = {.next = octets, .end = octets + octets_length};
    uint32_t n[ADSC_GROUND_NUMBERS] = {0};
    if (octets_length > ADSC_PDU_OCTETS)
        return ADSC_INPUT_OVER;
    if (!ground(&c, n) || !finish(&c))
        return c.refusal;
    if (numbers_length < ADSC_GROUND_NUMBERS)
        return ADSC_NO_ROOM;
    copy(numbers, n, REST * sizeof *n);
    memcpy(numbers + REST, n + REST, sizeof n - REST * sizeof *n);
    return ADSC_OK;
}

/* The sheet into the output, once the bits that are held are on it, with the filling. */
INLINE uint8_t deliver(struct coder *c, const uint8_t *sheet, uint8_t *out, size_t out_length, size_t *written)
{
    size_t n = c->sheet - sheet + (c->held + 7) / 8;
    put(c, 32 - c->held, 0);
    if (out_length < n)
        return ADSC_NO_ROOM;
    memcpy(out, sheet, n);
    *written = n;
    return ADSC_OK;
}

uint8_t hand_write_air(const uint32_t *numbers, size_t numbers_length, const uint8_t *list, size_t list_length, uint8_t *out, size_t out_length,
                       size_t *written)
{
    uint8_t sheet[ADSC_PDU_OCTETS], entries[ADSC_LIST_OCTETS];
    uint32_t n[ADSC_AIR_NUMBERS];
    struct coder c = {.writing = true, .sheet = sheet};
    if (numbers_length < ADSC_AIR_NUMBERS) {
        clear(n, sizeof n);
        numbers = memcpy(n, numbers, numbers_length * sizeof *n);
    }
    if (list_length < ADSC_LIST_OCTETS) {
        clear(entries, sizeof entries);
        list = memcpy(entries, list, list_length);
    }
    return air(&c, (uint32_t *)numbers, (uint8_t *)list) ? deliver(&c, sheet, out, out_length, written) : c.refusal;
}

uint8_t hand_write_ground(const uint32_t *numbers, size_t numbers_length, uint8_t *out, size_t out_length, size_t *written)
{
    uint8_t sheet[ADSC_PDU_OCTETS];
    uint32_t n[ADSC_GROUND_NUMBERS] = {0};
    struct coder c = {.writing = true, .sheet = sheet};
    if (numbers_length < ADSC_GROUND_NUMBERS)
        numbers = memcpy(n, numbers, numbers_length * sizeof *n);
    return ground(&c, (uint32_t *)numbers) ? deliver(&c, sheet, out, out_length, written) : c.refusal;
}
