/* Calls on a link: opened, asked for a periodic contract, confirmed; then a second passes, and a plain periodic report comes. */
#include <string.h>
#include "speed.h"

enum { LINK = ADSC_LINK_OCTETS, ANSWER = ADSC_ANSWER_OCTETS, SETTINGS = ADSC_TIMERS };

static const uint32_t settings[SETTINGS] = {60, 60, 60, 60, 60, 60, 60, 60, 60, 60};
static const uint32_t contract[GROUND] = {6, 0, 1, 1};          /* a report each minute */
static const uint8_t accepted[] = {0x38, 0x80};                 /* positive ack, periodic */
static const uint8_t plain[] = {0x30, 0, 0, 0, 0, 0, 0, 0, 1, 0x2c, 0, 0, 0, 0};

/* the record as each call finds it, so that every call can be made again and again */
static uint8_t opened[LINK], asked[LINK], active[LINK], later[LINK];
static uint8_t record[LINK], answer[ANSWER];

static void good(const char *refused, uint8_t refusal)
{
    if (refusal)
        stop(refused, NULL);
}

static void call_nothing(struct pdu *p)
{
    (void)p;
    memcpy(record, active, LINK);
}

static void call_open(struct pdu *p)
{
    call_nothing(p);
    good("adsc_open refuses", adsc_open(settings, SETTINGS, record, LINK));
}

static void call_request(struct pdu *p)
{
    (void)p;
    memcpy(record, opened, LINK);
    good("adsc_request refuses", adsc_request(record, LINK, contract, GROUND, answer, ANSWER));
}

static void call_confirm(struct pdu *p)
{
    (void)p;
    memcpy(record, asked, LINK);
    good("adsc_start_confirm refuses", adsc_start_confirm(record, LINK, accepted, sizeof accepted, answer, ANSWER));
}

static void call_elapse(struct pdu *p)
{
    call_nothing(p);
    good("adsc_elapse refuses", adsc_elapse(record, LINK, 1, answer, ANSWER));
}

static void call_data(struct pdu *p)
{
    (void)p;
    memcpy(record, later, LINK);
    good("adsc_data refuses", adsc_data(record, LINK, plain, sizeof plain, answer, ANSWER));
}

const struct op link_ops[LINK_OPS] = {
    {"nothing", call_nothing}, {"open", call_open}, {"request", call_request},
    {"start confirm", call_confirm}, {"elapse of 1 s", call_elapse}, {"data, a plain report", call_data},
};

/* The records above, by the calls themselves. A second changes an active record, and a report starts its timer anew. */
void link_ready(void)
{
    call_open(NULL);
    memcpy(opened, record, LINK);
    call_request(NULL);
    memcpy(asked, record, LINK);
    call_confirm(NULL);
    memcpy(active, record, LINK);
    call_elapse(NULL);
    memcpy(later, record, LINK);
    if (!memcmp(active, later, LINK))
        stop("a second changed nothing on the active link", NULL);
    call_data(NULL);
    if (memcmp(active, record, LINK))
        stop("a report did not start the periodic timer anew", NULL);
}
