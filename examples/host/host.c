/* A host in C: plays a bench script from standard input through libadschost.a, and prints the trace that the program adsc prints.
 *
 * What a gateway does stands in the middle, "The words of a script": one call for each thing that happens, on a record that the host keeps. Above it text
 * is read, below it an answer is printed where a gateway would do what it says. */
#include <inttypes.h>
#include <stdbool.h>
#include <stdio.h>
#include <string.h>
#include "adsc.h"

enum { LINE = 4096 };

struct text { const uint8_t *at; size_t n; };

struct host {
    bool open;                              /* whether there is a link yet */
    uint8_t link[ADSC_LINK_OCTETS];
    uint8_t answer[ADSC_ANSWER_OCTETS];
    uint8_t came[LINE / 2];                 /* the octets of this line */
    size_t came_length;
};

/* ---- text */

/* What stands before the next space; t then starts with the space, or is at its end. */
static struct text cut(struct text *t)
{
    struct text word = {t->at, 0};
    while (word.n < t->n && t->at[word.n] != ' ')
        word.n++;
    t->at += word.n;
    t->n -= word.n;
    return word;
}

static bool is(struct text t, const char *name)
{
    return t.n == strlen(name) && memcmp(t.at, name, t.n) == 0;
}

/* A space and a number of 32 bits without a sign or a leading zero. */
static bool number(struct text *t, uint32_t *value)
{
    if (t->n == 0 || *t->at != ' ')
        return false;
    *t = (struct text){t->at + 1, t->n - 1};
    struct text digits = cut(t);
    if (digits.n == 0 || digits.n > 10 || (digits.n > 1 && *digits.at == '0'))
        return false;
    uint64_t v = 0;
    for (size_t i = 0; i < digits.n; i++) {
        if (digits.at[i] < '0' || digits.at[i] > '9')
            return false;
        v = v * 10 + (digits.at[i] - '0');
    }
    *value = (uint32_t)v;
    return v <= UINT32_MAX;
}

static int digit(uint8_t c)
{
    return c >= '0' && c <= '9' ? c - '0' : c >= 'a' && c <= 'f' ? c - 'a' + 10 : -1;
}

/* Nothing, or a space and at least one octet in hexadecimal. */
static bool octets(struct host *h, struct text t)
{
    if (t.n == 0)
        return true;
    if (t.n % 2 == 0 || t.n == 1)
        return false;
    for (size_t i = 1; i < t.n; i += 2) {
        int high = digit(t.at[i]), low = digit(t.at[i + 1]);
        if (high < 0 || low < 0)
            return false;
        h->came[h->came_length++] = (uint8_t)(high * 16 + low);
    }
    return true;
}

/* ---- The words of a script: each a call, with what follows the word. They give 0 or a refusal; what is not readable is 17. */

static uint8_t set(struct host *h, struct text t)
{
    uint32_t settings[ADSC_TIMERS];
    for (int i = 0; i < ADSC_TIMERS; i++)
        if (!number(&t, &settings[i]))
            return ADSC_SCRIPT_LINE;
    if (t.n != 0)
        return ADSC_SCRIPT_LINE;
    uint8_t refusal = adsc_open(settings, ADSC_TIMERS, h->link, sizeof h->link);
    h->open = refusal == ADSC_OK;
    return refusal;
}

/* A script has requests as PDUs. A gateway's user has wishes: it fills the numbers in, by the names of adsc.h, and reads nothing. */
static uint8_t request(struct host *h, struct text t)
{
    uint32_t numbers[ADSC_GROUND_NUMBERS];
    if (!octets(h, t) || adsc_read_ground(h->came, h->came_length, numbers, ADSC_GROUND_NUMBERS) != ADSC_OK)
        return ADSC_SCRIPT_LINE;
    return adsc_request(h->link, sizeof h->link, numbers, ADSC_GROUND_NUMBERS, h->answer, sizeof h->answer);
}

static uint8_t elapse(struct host *h, struct text t)
{
    uint32_t seconds;
    if (!number(&t, &seconds) || t.n != 0)
        return ADSC_SCRIPT_LINE;
    return adsc_elapse(h->link, sizeof h->link, seconds, h->answer, sizeof h->answer);
}

/* The other words are of two kinds: with the octets that came, and alone. */
typedef uint8_t bringing(uint8_t *, size_t, const uint8_t *, size_t, uint8_t *, size_t);
typedef uint8_t alone(uint8_t *, size_t, uint8_t *, size_t);

static const struct { const char *name; bringing *call; } bringings[] = {
    {"start-cnf", adsc_start_confirm}, {"data", adsc_data}, {"air-abort", adsc_air_abort},
};
static const struct { const char *name; alone *call; } alones[] = {
    {"user-abort", adsc_user_abort}, {"start-rej", adsc_start_rejected}, {"end-cnf", adsc_end_confirm},
    {"peer-abort", adsc_peer_abort}, {"down", adsc_down},
};

static uint8_t other(struct host *h, struct text word, struct text t)
{
    for (size_t i = 0; i < sizeof bringings / sizeof *bringings; i++)
        if (is(word, bringings[i].name) && octets(h, t))
            return bringings[i].call(h->link, sizeof h->link, h->came, h->came_length, h->answer, sizeof h->answer);
    for (size_t i = 0; i < sizeof alones / sizeof *alones; i++)
        if (is(word, alones[i].name) && t.n == 0)
            return alones[i].call(h->link, sizeof h->link, h->answer, sizeof h->answer);
    return ADSC_SCRIPT_LINE;
}

/* One line. The first good `set` opens the link, and there is one link. */
static uint8_t play(struct host *h, struct text line)
{
    struct text word = cut(&line);
    h->came_length = 0;
    if (!h->open)
        return is(word, "set") ? set(h, line) : ADSC_SCRIPT_LINE;
    if (is(word, "req"))
        return request(h, line);
    if (is(word, "elapse"))
        return elapse(h, line);
    return other(h, word, line);
}

/* ---- answers */

static void print_octets(const uint8_t *octets, size_t n)
{
    if (n > 0)
        putchar(' ');
    for (size_t i = 0; i < n; i++)
        printf("%02x", octets[i]);
}

static void print_timer(uint8_t action)
{
    static const char *const names[ADSC_TIMERS] = {"DC1", "DC2", "EC1", "EC2", "PC1", "PC2", "PC3", "EM1", "EM2", "LI1"};
    bool starts = action >= ADSC_START_TIMER;
    printf(" %s %s", starts ? "start" : "stop", names[action - (starts ? ADSC_START_TIMER : ADSC_STOP_TIMER)]);
}

static void print_action(const struct host *h, uint8_t action)
{
    switch (action) {
    case ADSC_START_REQUEST: printf(" start-req"); break;
    case ADSC_DATA_REQUEST: printf(" data-req"); break;
    case ADSC_END_REQUEST: printf(" end-req"); break;
    case ADSC_ABORT_REQUEST: printf(" abort-req"); break;
    case ADSC_INDICATION: printf(" ind"); print_octets(h->came, h->came_length); break;
    case ADSC_ABORT_INDICATION: printf(" ind abort %" PRIu32, adsc_answer_reason(h->answer)); break;
    case ADSC_PEER_ABORT: printf(" ind peer-abort"); break;
    case ADSC_LATE: printf(" late"); break;
    default: print_timer(action);
    }
}

static void print_answer(const struct host *h)
{
    size_t sent = adsc_answer_sent(h->answer);
    printf("ok");
    for (size_t i = 0; i < adsc_answer_actions(h->answer); i++) {
        uint8_t action = adsc_answer_action(h->answer, i);
        print_action(h, action);
        if (action <= ADSC_ABORT_REQUEST) {
            print_octets(adsc_answer_sent_octets(h->answer), sent);
            sent = 0;                       /* it goes with the first request alone */
        }
    }
}

/* ---- lines */

/* The next line without its end; one that is too long keeps a length that shows it. False where there is none. */
static bool next_line(uint8_t *room, struct text *line)
{
    int c = getchar();
    *line = (struct text){room, 0};
    if (c == EOF)
        return false;
    for (; c != EOF && c != '\n'; c = getchar())
        if (line->n <= LINE)
            room[line->n++] = (uint8_t)c;
    return true;
}

int main(void)
{
    static struct host h;                   /* its answer is empty until a call writes one: adsc_open has none */
    static uint8_t room[LINE + 1];
    struct text line;
    uint64_t count = 0;
    printf("adsc trace 1\n");
    while (!ferror(stdout) && next_line(room, &line)) {
        uint8_t refusal = line.n > LINE ? ADSC_SCRIPT_LINE : play(&h, line);
        printf("%" PRIu64 " ", ++count);
        if (refusal == ADSC_OK)
            print_answer(&h);
        else
            printf("refused %d", refusal);
        putchar('\n');
    }
    printf("end %" PRIu64 "\n", count);
    return fflush(stdout) != 0 || ferror(stdout);
}
