/* The ten lines of the README: a link is opened, a report every minute asked for and agreed, one comes at the last second of the grace, and then none. */
#include <stdio.h>
#include "adsc.h"

/* What a gateway does with an answer: here it is printed. */
static void act(uint8_t refusal, const uint8_t *answer)
{
    printf(refusal ? "refused %d" : "ok", refusal);
    for (size_t i = 0; answer && !refusal && i < adsc_answer_actions(answer); i++)
        printf(" %d", adsc_answer_action(answer, i));
    for (size_t i = 0; answer && !refusal && i < adsc_answer_sent(answer); i++)
        printf("%s%02x", i ? "" : ", sends ", adsc_answer_sent_octets(answer)[i]);
    putchar('\n');
}

int main(void)
{
    /* from here */
    uint8_t link[ADSC_LINK_OCTETS], answer[ADSC_ANSWER_OCTETS];
    uint32_t settings[ADSC_TIMERS] = {360, 210, 360, 360, 360, 240, 360, 240, 360, 360};   /* seconds: DC1 DC2 EC1 EC2 PC1 PC2 PC3 EM1 EM2 LI1 */
    uint32_t contract[ADSC_GROUND_NUMBERS] = {[ADSC_G_KIND] = ADSC_PERIODIC_CONTRACT, [ADSC_G_SCALE] = ADSC_MINUTES, [ADSC_G_INTERVAL] = 1};
    uint8_t ack[] = {0x38, 0x80}, report[] = {0x30, 0, 0, 0, 0, 0, 0, 0, 1, 0x2c, 0, 0, 0, 0};
    act(adsc_open(settings, ADSC_TIMERS, link, sizeof link), NULL);
    act(adsc_request(link, sizeof link, contract, ADSC_GROUND_NUMBERS, answer, sizeof answer), answer);   /* 640400 goes with a start request; PC1 runs */
    act(adsc_start_confirm(link, sizeof link, ack, sizeof ack, answer, sizeof answer), answer);           /* agreed: PC2 runs, 60 + 240 seconds */
    act(adsc_elapse(link, sizeof link, 299, answer, sizeof answer), answer);                              /* overdue by 239: one is left */
    act(adsc_data(link, sizeof link, report, sizeof report, answer, sizeof answer), answer);              /* a report for the user: 300 again */
    act(adsc_elapse(link, sizeof link, 300, answer, sizeof answer), answer);                              /* silence: the link ends, abort 4 */
    /* to here */
    return 0;
}
