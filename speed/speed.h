/* What the parts of the driver share. */
#include <stddef.h>
#include <stdint.h>
#include "Aircraft.h"
#include "Ground.h"
#include "hand.h"

enum { AIR = ADSC_AIR_NUMBERS, GROUND = ADSC_GROUND_NUMBERS, LIST = ADSC_LIST_OCTETS, OCTETS = 128 };

/* A PDU of the mix, its value in both codecs, and what was last written of it. */
struct pdu {
    int air;
    uint8_t octets[OCTETS];
    size_t length;
    void *theirs;
    uint32_t numbers[AIR];
    uint8_t list[LIST];
    uint8_t out[OCTETS];
    size_t written;
};

typedef void job(struct pdu *);
struct op { const char *name; job *run; };

/* What the archive has to read where asn1c read this; all numbers and entries are 0 before. */
void flat_air(const Aircraft_t *a, uint32_t *numbers, uint8_t *list);
void flat_ground(const Ground_t *g, uint32_t *numbers);

/* Whether the kind of PDU that these octets begin is read by hand. */
int by_hand(int air, const uint8_t *octets);

/* The archive and the codec by hand on inputs made of these PDUs, which were read; then what they answered. With `spoils` one answer is altered. */
void alike(const struct pdu *first, int count, int spoils);
void alike_tell(void);

/* Octets of stack that a call reaches down. */
size_t stack_of(job *run, struct pdu *p);

/* The link calls, each on the record that it is due on, once that is made ready. */
enum { LINK_OPS = 6 };
extern const struct op link_ops[LINK_OPS];
void link_ready(void);

/* Ends the driver, 1. */
_Noreturn void stop(const char *what, const struct pdu *p);
