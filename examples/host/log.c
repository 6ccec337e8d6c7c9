/* A host that keeps the flight log of a link on disk, and is cut off while it writes a block: what it had kept before is read, the link stands as it did then,
 * and the log goes on from there. A report comes every minute. */
#include <inttypes.h>
#include <stdbool.h>
#include <stdio.h>
#include <string.h>
#include "adsc.h"

static uint8_t link[ADSC_LINK_OCTETS], answer[ADSC_ANSWER_OCTETS], block[ADSC_BLOCK_OCTETS];
static FILE *disk;

/* ---- keeping: a finished block stands at its number, and so many of its octets reach the disk */

static bool keep(size_t octets)
{
    return adsc_block_finish(block, sizeof block) == ADSC_OK
        && fseek(disk, (long)adsc_block_number(block) * ADSC_BLOCK_OCTETS, SEEK_SET) == 0
        && fwrite(block, 1, octets, disk) == octets && fflush(disk) == 0;
}

/* Records a call that was accepted. Where the block has no room it is kept, and the next one takes the record. */
static uint8_t record(uint8_t kind, uint32_t seconds, const uint8_t *data, size_t n)
{
    uint8_t refusal = adsc_block_append(block, sizeof block, kind, seconds, data, n);
    if (refusal == ADSC_NO_ROOM && keep(sizeof block)) {
        refusal = adsc_block_open(block, sizeof block, adsc_block_number(block) + 1);
        if (refusal == ADSC_OK)
            refusal = adsc_block_append(block, sizeof block, kind, seconds, data, n);
    }
    return refusal;
}

/* ---- the calls of a flight, each recorded where it is accepted */

static bool start(void)
{
    uint32_t settings[ADSC_TIMERS] = {360, 210, 360, 360, 360, 240, 360, 240, 360, 360};
    uint32_t contract[ADSC_GROUND_NUMBERS] = {[ADSC_G_KIND] = ADSC_PERIODIC_CONTRACT, [ADSC_G_SCALE] = ADSC_MINUTES, [ADSC_G_INTERVAL] = 1};
    uint8_t ack[] = {0x38, 0x80}, pdu[ADSC_PDU_OCTETS];
    size_t written;
    return adsc_block_open(block, sizeof block, 0) == ADSC_OK
        && adsc_open(settings, ADSC_TIMERS, link, sizeof link) == ADSC_OK
        && record(ADSC_CALL_SETTINGS, 0, link + ADSC_LINK_SETTINGS, ADSC_SETTINGS_OCTETS) == ADSC_OK
        && adsc_write_ground(contract, ADSC_GROUND_NUMBERS, pdu, sizeof pdu, &written) == ADSC_OK
        && adsc_request(link, sizeof link, contract, ADSC_GROUND_NUMBERS, answer, sizeof answer) == ADSC_OK
        && record(ADSC_CALL_REQUEST, 0, pdu, written) == ADSC_OK
        && adsc_start_confirm(link, sizeof link, ack, sizeof ack, answer, sizeof answer) == ADSC_OK
        && record(ADSC_CALL_START_CONFIRM, 0, ack, sizeof ack) == ADSC_OK;
}

static bool minute(void)
{
    uint8_t report[] = {0x30, 0, 0, 0, 0, 0, 0, 0, 1, 0x2c, 0, 0, 0, 0};
    return adsc_elapse(link, sizeof link, 60, answer, sizeof answer) == ADSC_OK
        && record(ADSC_CALL_ELAPSE, 60, link, 0) == ADSC_OK
        && adsc_data(link, sizeof link, report, sizeof report, answer, sizeof answer) == ADSC_OK
        && record(ADSC_CALL_DATA, 0, report, sizeof report) == ADSC_OK;
}

static bool minutes(int n)
{
    while (n > 0 && minute())
        n--;
    return n == 0;
}

/* ---- reading */

static int calls(void)
{
    int n = 0;
    for (size_t at = adsc_block_first(); at < adsc_block_end(block); at = adsc_record_next(block, at))
        n++;
    return n;
}

/* The log from its start, up to a block that is refused; gives the number of the block to go on with. */
static uint32_t read_back(void)
{
    uint32_t number = 0;
    size_t n;
    memset(link, 0, sizeof link);                           /* no settings yet */
    rewind(disk);
    while ((n = fread(block, 1, sizeof block, disk)) > 0) {
        uint8_t refusal = adsc_block_play(link, sizeof link, block, n, number);
        if (refusal != ADSC_OK) {
            printf("block %" PRIu32 ": refused %d\n", number, refusal);
            break;
        }
        printf("block %" PRIu32 ": %d calls, then a report is due in %" PRId32 " s\n", number, calls(), adsc_link_due(link));
        number++;
    }
    return number;
}

int main(void)
{
    disk = tmpfile();
    if (disk == NULL || !start() || !minutes(20) || !keep(300))     /* the power fails when 300 octets of a block are on the disk */
        return 1;
    printf("after a failure of power:\n");
    uint32_t next = read_back();
    if (adsc_block_open(block, sizeof block, next) != ADSC_OK || !minutes(2) || !keep(sizeof block))
        return 1;
    printf("after two minutes more:\n");
    read_back();
    return 0;
}
