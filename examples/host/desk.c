/* What a desk shows of a periodic contract: the interval, when the next report is due, and how long the link waits for it. A report every two hours is asked
 * for and agreed; it comes 30 seconds late. A report every ten minutes is asked for then and refused, and no further one comes. Asked anew, the aircraft refuses
 * at once, so the link is closed, and the end is not confirmed. */
#include <inttypes.h>
#include <stdio.h>
#include "adsc.h"

static uint8_t link[ADSC_LINK_OCTETS], answer[ADSC_ANSWER_OCTETS];

static void show(uint8_t refusal, const char *what)
{
    uint32_t asked = adsc_link_asked(link), force = adsc_link_force(link), left = adsc_link_left(link, ADSC_PC2);
    int32_t due = adsc_link_due(link);
    printf("%s:", what);
    if (refusal)
        printf(" refused %d,", refusal);
    if (force)
        printf(" interval %" PRIu32 " s,", force);
    if (asked)
        printf(" %" PRIu32 " s asked for", asked);
    else if (adsc_link_left(link, ADSC_LI1))
        printf(" closing, %" PRIu32 " s until the link ends", adsc_link_left(link, ADSC_LI1));
    else if (left == 0)
        printf(" no report awaited");                                   /* no contract, a cancel, or an emergency */
    else if (due > 0)
        printf(" next report due in %" PRId32 " s", due);
    else
        printf(" overdue by %" PRId32 " s, %" PRIu32 " s until the link ends", -due, left);
    putchar('\n');
}

static uint8_t ask(uint32_t minutes)
{
    uint32_t contract[ADSC_GROUND_NUMBERS] = {[ADSC_G_KIND] = ADSC_PERIODIC_CONTRACT, [ADSC_G_SCALE] = ADSC_MINUTES, [ADSC_G_INTERVAL] = minutes};
    return adsc_request(link, sizeof link, contract, ADSC_GROUND_NUMBERS, answer, sizeof answer);
}

static uint8_t pass(uint32_t seconds)
{
    return adsc_elapse(link, sizeof link, seconds, answer, sizeof answer);
}

int main(void)
{
    uint32_t settings[ADSC_TIMERS] = {360, 210, 360, 360, 360, 240, 360, 240, 360, 360};     /* PC2's is the grace: four minutes */
    uint8_t ack[] = {0x38, 0x80}, no[] = {0x20, 0xb0}, report[] = {0x30, 0, 0, 0, 0, 0, 0, 0, 1, 0x2c, 0, 0, 0, 0};
    show(adsc_open(settings, ADSC_TIMERS, link, sizeof link), "opened");
    show(ask(120), "asked");
    show(adsc_start_confirm(link, sizeof link, ack, sizeof ack, answer, sizeof answer), "agreed");
    show(pass(5), "5 s");
    show(pass(7195), "two hours");
    show(pass(30), "30 s");
    show(adsc_data(link, sizeof link, report, sizeof report, answer, sizeof answer), "report");
    show(ask(10), "asked");
    show(adsc_data(link, sizeof link, no, sizeof no, answer, sizeof answer), "refused");
    show(pass(7439), "silence");
    show(pass(1), "1 s");
    show(ask(10), "asked");
    show(adsc_start_confirm(link, sizeof link, no, sizeof no, answer, sizeof answer), "refused");
    show(pass(359), "359 s");
    show(pass(1), "1 s");
    return 0;
}
