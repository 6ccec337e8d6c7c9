/* How deep a call reaches: it runs on a painted stack, and the lowest octet that it wrote is sought. */
#include <string.h>
#include <ucontext.h>
#include "speed.h"

enum { ROOM = 1 << 14, PAINT = 0xa5 };

static uint8_t room[ROOM];
static ucontext_t here, there;
static job *due;
static struct pdu *with;

static void call(void)
{
    due(with);
}

static void call_there(job *run, struct pdu *p)
{
    due = run;
    with = p;
    memset(room, PAINT, ROOM);
    getcontext(&there);
    there.uc_stack.ss_sp = room;
    there.uc_stack.ss_size = ROOM;
    there.uc_link = &here;
    makecontext(&there, call, 0);
    swapcontext(&here, &there);
}

static size_t reached(job *run, struct pdu *p)
{
    size_t untouched = 0;
    call_there(run, p);
    while (untouched < ROOM && room[untouched] == PAINT)
        untouched++;
    if (!untouched)
        stop("a call takes more stack than there is", p);
    return ROOM - untouched;
}

static void nothing(struct pdu *p)
{
    (void)p;
}

size_t stack_of(job *run, struct pdu *p)
{
    static size_t before;
    if (!before)
        before = reached(nothing, p);
    return reached(run, p) - before;
}
