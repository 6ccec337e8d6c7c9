/* adsc.h: the ground side of ADS (ICAO Doc 9705) for a host in C: the contracts of one air-ground link, its timers, and the PDUs of both sides.
 * C99, and C++. The functions are in libadschost.a (examples/host/archive makes it), which is for x86-64 and needs C's memory functions only.
 *
 * How a host works with it:
 *
 *   - It keeps a link record, ADSC_LINK_OCTETS octets, for each aircraft. adsc_open makes it; every further call reads, checks and changes it.
 *   - It makes one call for each thing that happens: the user asks for something, something comes from below (the dialogue service), seconds pass.
 *   - It does what the answer says, in order: requests to the dialogue service, indications to the user.
 *
 * Every function:
 *
 *   - gives 0 (ADSC_OK) or the number of a refusal, the first that applies. A refused call leaves every buffer as it was, and there is no answer.
 *   - has the same result for the same arguments, and ends. It keeps no pointer and no state, allocates nothing and calls nothing back. So several
 *     threads may use it at once, each on records of its own.
 *   - takes octets and numbers as a pointer and a length, counted in elements. A length of 0 goes with any pointer that is not null. The buffers of one
 *     call do not overlap.
 *
 * Only the seconds that the host reports by adsc_elapse pass. Report them before what came at their end: then a timer that was used up ends the link
 * first, as it should.
 */
#ifndef ADSC_H
#define ADSC_H

#include <stddef.h>
#include <stdint.h>

#ifdef __cplusplus
extern "C" {
#endif

/* ---- sizes */

#define ADSC_LINK_OCTETS 93     /* of a link record, exactly */
#define ADSC_ANSWER_OCTETS 31   /* of an answer; a longer buffer keeps what follows */
#define ADSC_TIMERS 10          /* settings of adsc_open */
#define ADSC_GROUND_NUMBERS 21  /* of a ground PDU */
#define ADSC_AIR_NUMBERS 40     /* of an aircraft PDU, */
#define ADSC_LIST_OCTETS 128    /* and of its list */
#define ADSC_PDU_OCTETS 128     /* room for every PDU; an input over it is refused */
#define ADSC_ACTIONS_MOST 8     /* in one answer */
#define ADSC_SENT_MOST 17       /* octets of the PDU in one answer */
#define ADSC_SECONDS_MOST 86400 /* of a setting and of one adsc_elapse */
#define ADSC_INTERVAL_MOST 7200 /* seconds of a record's interval: 120 minutes, the longest that can be asked for */
#define ADSC_BLOCK_OCTETS 512   /* of a block of the flight log, exactly, */
#define ADSC_PAYLOAD_MOST 504   /* of its records together, */
#define ADSC_KEPT_MOST 129      /* of the data of a record: one more than reads, so that longer data gets the same answer */
#define ADSC_SETTINGS_OCTETS 40 /* of the data of a settings record, exactly. One of 36, of a log from before ADSC_LI1, still plays */
#define ADSC_BLOCKS_MOST 16777216 /* of a log: its block numbers are below */

/* ---- refusals */

enum adsc_refusal {
    ADSC_OK = 0,
    ADSC_NOT_PERMITTED = 1,     /* request not permitted */
    ADSC_CANNOT_OCCUR = 2,      /* cannot occur: nothing like it is due from below in this state */
    ADSC_BAD_SETTING = 3,       /* setting not 1..86,400, or not ten of them */
    ADSC_ELAPSE_OVER = 4,       /* elapse over 86,400 */
    ADSC_OUT_OF_RANGE = 5,      /* field to write out of range */
    ADSC_NO_ROOM = 6,           /* output shorter than the PDU, the numbers, the answer or the record; a block without room; judged last */
    ADSC_CUT_SHORT = 7,         /* input ends inside a field */
    ADSC_ABOVE_RANGE = 8,       /* sent value above its range or index unused */
    ADSC_EXTENSION_SET = 9,     /* extension bit set */
    ADSC_NOT_CARRIED = 10,      /* presence bit of an element not carried */
    /* 11 is retired: no function gives it, and the number is not used again. It was a default interval that is sent, which now reads */
    ADSC_LIST_OVER = 12,        /* list over 16 */
    ADSC_FILLING = 13,          /* filling not zero */
    ADSC_OCTETS_AFTER = 14,     /* octets after the PDU */
    ADSC_NO_ELEMENT = 15,       /* event contract with no element */
    ADSC_INPUT_OVER = 16,       /* input over 128 octets */
    ADSC_SCRIPT_LINE = 17,      /* script line not readable: of the bench's scripts, no function gives it */
    ADSC_CHECK_WRONG = 18,      /* block of a log: check wrong */
    ADSC_OUT_OF_TURN = 19,      /* block number out of turn */
    ADSC_NOT_READABLE = 20,     /* record of a log not readable: cut short, wrong length or zeros, a field its call does not use, no settings first or settings
                                 * elsewhere, refused in play; a block not of 512 octets */
    ADSC_BAD_RECORD = 29        /* link record: running timers not those of the watch table, seconds left not 1..setting (of PC2: 1..interval in force plus
                                 * setting), a setting not 1..86,400, an interval missing from its state of PC, foreign to it, or over 7,200, or LI in IDLE or
                                 * END with a module not IDLE; numbers that are no states; not of 93 octets */
};

/* ---- timers, in watch order: the order of the settings, and the number in a timer's actions */

enum adsc_timer {
    ADSC_DC1 = 0,               /* a demand contract is asked for */
    ADSC_DC2 = 1,               /* after a demand noncompliance: the report is due */
    ADSC_EC1 = 2,               /* an event contract is asked for */
    ADSC_EC2 = 3,               /* its cancel is asked for */
    ADSC_PC1 = 4,               /* a periodic contract is asked for */
    ADSC_PC2 = 5,               /* one is in force: the next report is due. Runs for the interval in force and its setting, the grace. Rests in an emergency */
    ADSC_PC3 = 6,               /* its cancel is asked for */
    ADSC_EM1 = 7,               /* an emergency: the next report is due */
    ADSC_EM2 = 8,               /* a change of its interval is asked for */
    ADSC_LI1 = 9                /* the end of the link is asked for: its confirmation is due */
};

/* ---- ground PDUs as ADSC_GROUND_NUMBERS numbers. What a kind does not have reads as 0 and is not looked at when written. Of a shorter list the numbers
 * that are not there count as 0, and what follows the last one is not looked at. Truth values are 0 and 1; written, another number is out of range (5). */

enum adsc_ground_place {
    ADSC_G_KIND = 0,
    ADSC_G_WHAT = 1,            /* the contract to cancel, the elements of a contract, or the reason of an abort */
    ADSC_G_SCALE = 2,           /* of the interval (periodic contract, modify emergency): ADSC_SECONDS or ADSC_MINUTES */
    ADSC_G_INTERVAL = 3,        /* 1..59 seconds, 1..120 minutes. The default of a periodic contract is given as 5 minutes, sent or not; it is not written */
    ADSC_G_ADDRESS = 4,         /* moduli of a periodic contract, 1..255, each where its element is set */
    ADSC_G_PROFILE = 5,
    ADSC_G_GROUND_VECTOR = 6,
    ADSC_G_AIR_VECTOR = 7,
    ADSC_G_WEATHER = 8,
    ADSC_G_LATERAL = 9,         /* of an event contract, each where its element is set: a lateral deviation, 0..2000 tenths of a nautical mile, */
    ADSC_G_RATE = 10,           /* a vertical rate, -3000..3000 tens of feet a minute in two's complement: (int32_t) gives it its sign, */
    ADSC_G_CEILING = 11,        /* the ceiling and the floor of a level range, */
    ADSC_G_FLOOR = 12,          /* each -75..10000 tens of feet in two's complement; a ceiling below its floor is taken, */
    ADSC_G_AIR_SPEED = 13,      /* which air speed changes, ADSC_SPEED_MACH or ADSC_SPEED_IAS, */
    ADSC_G_AIR_SPEED_CHANGE = 14, /* and by how much: 1..255 times 0.005 Mach, or 1..700 knots, */
    ADSC_G_GROUND_SPEED = 15,   /* a change of ground speed, 0..300 knots, */
    ADSC_G_HEADING = 16,        /* of heading, 1..3600 tenths of a degree, */
    ADSC_G_EXTENDED_PROFILE = 17, /* how much of the extended profile is asked for, enum adsc_profile, */
    ADSC_G_EXTENDED_PROFILE_COUNT = 18, /* and how many: 1..80 times 15 minutes, or 1..128 way points, */
    ADSC_G_TRACK = 19,          /* a change of track angle, as of heading, */
    ADSC_G_LEVEL = 20           /* of level, 1..500 tens of feet */
};

enum adsc_ground_kind {
    ADSC_CANCEL_ALL = 0,
    ADSC_CANCEL_CONTRACT = 1,
    ADSC_CANCEL_EMERGENCY_ACK = 2,  /* the box sends it itself: as a request it is 1 */
    ADSC_DEMAND_CONTRACT = 3,
    ADSC_EVENT_CONTRACT = 4,
    ADSC_MODIFY_EMERGENCY = 5,
    ADSC_PERIODIC_CONTRACT = 6,
    ADSC_GROUND_ABORT = 7           /* the same */
};

enum adsc_contract { ADSC_CANCEL_EVENT = 0, ADSC_CANCEL_PERIODIC = 1 };  /* ADSC_G_WHAT of a cancel-contract */
enum adsc_scale { ADSC_SECONDS = 0, ADSC_MINUTES = 1 };
enum adsc_profile { ADSC_PROFILE_TIME = 0, ADSC_PROFILE_WAYPOINTS = 1 };

/* Elements are presence bits. Of demand and periodic contracts, and of reports (which carry the address, the vectors and weather): */
enum adsc_element {
    ADSC_HAS_ADDRESS = 64,
    ADSC_HAS_PROFILE = 32,          /* of a report not carried: 10 */
    ADSC_HAS_GROUND_VECTOR = 16,
    ADSC_HAS_AIR_VECTOR = 8,
    ADSC_HAS_WEATHER = 4,
    ADSC_HAS_SHORT_TERM_INTENT = 2, /* not carried: 10 */
    ADSC_HAS_EXTENDED_PROFILE = 1   /* not carried: 10 */
};

/* of emergency reports, */
enum adsc_urgent_element {
    ADSC_URGENT_HAS_ADDRESS = 2,
    ADSC_URGENT_HAS_GROUND_VECTOR = 1
};

/* of what a report says of speed and weather: what is not there reads as 0, and a vector or weather with nothing in it is one; */
enum adsc_ground_part { ADSC_HAS_TRACK = 4, ADSC_HAS_GROUND_SPEED = 2, ADSC_HAS_GROUND_RATE = 1 };
enum adsc_air_part { ADSC_HAS_HEADING = 4, ADSC_HAS_AIR_SPEED = 2, ADSC_HAS_AIR_RATE = 1 };
enum adsc_weather_part { ADSC_HAS_WIND_SPEED = 8, ADSC_HAS_WIND_DIRECTION = 4, ADSC_HAS_TEMPERATURE = 2, ADSC_HAS_TURBULENCE = 1 };

/* and of event contracts, at least one of them: */
enum adsc_event_element {
    ADSC_ON_LATERAL_CHANGE = 1024,
    ADSC_ON_RATE_CHANGE = 512,
    ADSC_ON_LEVEL_RANGE = 256,
    ADSC_ON_WAYPOINT_CHANGE = 128,  /* has no number */
    ADSC_ON_AIR_SPEED_CHANGE = 64,
    ADSC_ON_GROUND_SPEED_CHANGE = 32,
    ADSC_ON_HEADING_CHANGE = 16,
    ADSC_ON_PROFILE_CHANGE = 8,
    ADSC_ON_MERIT_CHANGE = 4,       /* has no number */
    ADSC_ON_TRACK_CHANGE = 2,
    ADSC_ON_LEVEL_CHANGE = 1
};

/* ---- aircraft PDUs as ADSC_AIR_NUMBERS numbers, under the same rules, and the octets of a list */

enum adsc_air_place {
    ADSC_A_KIND = 0,
    ADSC_A_WHAT = 1,            /* report: whether a positive ack goes with it. Acks: the request type. Noncompliance: of which contract. Abort: the reason */
    ADSC_A_DETAIL = 2,          /* event report: the event type, 0..11. Negative ack: the reason */
    ADSC_A_COUNT = 3,           /* entries of the list, 0..16 */
    ADSC_A_ELEMENTS = 4,
    ADSC_A_SOUTH = 5,           /* 1: the latitude is below zero. 0 degrees have both signs */
    ADSC_A_LATITUDE = 6,        /* degrees, 0..90, */
    ADSC_A_LATITUDE_MINUTES = 7,
    ADSC_A_LATITUDE_TENTHS = 8, /* tenths of a second, 0..599 */
    ADSC_A_WEST = 9,
    ADSC_A_LONGITUDE = 10,      /* 0..180, the rest alike */
    ADSC_A_LONGITUDE_MINUTES = 11,
    ADSC_A_LONGITUDE_TENTHS = 12,
    ADSC_A_LEVEL = 13,          /* -75..10000 in two's complement: (int32_t) gives it its sign */
    ADSC_A_YEAR = 14,           /* 1996..2095 */
    ADSC_A_MONTH = 15,
    ADSC_A_DAY = 16,
    ADSC_A_HAS_SECONDS = 17,
    ADSC_A_HOURS = 18,
    ADSC_A_MINUTES = 19,
    ADSC_A_SECONDS = 20,
    ADSC_A_ACCURACY = 21,       /* 0..7 */
    ADSC_A_UNITS = 22,          /* whether more than one navigational unit works, */
    ADSC_A_AVOIDANCE = 23,      /* and whether collision avoidance does */
    ADSC_A_ADDRESS = 24,        /* 24 bits, where its element is set */
    ADSC_A_GROUND_PARTS = 25,   /* the ground vector, where its element is set: which of its parts are there, enum adsc_ground_part, */
    ADSC_A_TRACK = 26,          /* 1..3600 tenths of a degree, */
    ADSC_A_GROUND_SPEED = 27,   /* -50..2200 knots in two's complement, */
    ADSC_A_GROUND_RATE = 28,    /* -3000..3000 tens of feet a minute in two's complement */
    ADSC_A_AIR_PARTS = 29,      /* the air vector, of a report: enum adsc_air_part, */
    ADSC_A_HEADING = 30,        /* as a track, */
    ADSC_A_AIR_SPEED = 31,      /* which air speed, enum adsc_air_speed, */
    ADSC_A_MACH = 32,           /* 500..4000 thousandths, */
    ADSC_A_IAS = 33,            /* 0..1100 knots, */
    ADSC_A_AIR_RATE = 34,       /* as of the ground vector */
    ADSC_A_WEATHER_PARTS = 35,  /* weather, of a report: enum adsc_weather_part, */
    ADSC_A_WIND_SPEED = 36,     /* 0..300 knots, */
    ADSC_A_WIND_DIRECTION = 37, /* 1..360 degrees, */
    ADSC_A_TEMPERATURE = 38,    /* -400..400 quarters of a degree Celsius in two's complement, */
    ADSC_A_TURBULENCE = 39      /* 0..15 */
};

enum adsc_air_speed { ADSC_SPEED_MACH = 0, ADSC_SPEED_IAS = 1, ADSC_SPEED_BOTH = 2 };

enum adsc_air_kind {
    ADSC_CANCEL_EMERGENCY = 0,
    ADSC_DEMAND_REPORT = 1,
    ADSC_EMERGENCY_REPORT = 2,
    ADSC_EVENT_REPORT = 3,
    ADSC_NEGATIVE_ACK = 4,      /* with ADSC_CAPACITY_EXCEEDED the list holds names, eight octets of 0..127 each */
    ADSC_NONCOMPLIANCE = 5,     /* the list holds an octet for each element that is not met */
    ADSC_PERIODIC_REPORT = 6,
    ADSC_POSITIVE_ACK = 7,
    ADSC_AIR_ABORT = 8
};

enum adsc_request_type {
    ADSC_OF_EVENT = 0,
    ADSC_OF_PERIODIC = 1,
    ADSC_OF_DEMAND = 2,
    ADSC_OF_CANCEL_EVENT = 3,
    ADSC_OF_CANCEL_PERIODIC = 4,
    ADSC_OF_MODIFY_EMERGENCY = 5,
    ADSC_OF_CANCEL_ALL = 6,
    ADSC_OF_END_FORWARD = 7
};

enum adsc_negative_reason {
    ADSC_SERVICE_UNAVAILABLE = 0,
    ADSC_RATE_NOT_MET = 1,
    ADSC_CAPACITY_EXCEEDED = 2,
    ADSC_REASON_UNDEFINED = 3
};

enum adsc_unmet {
    ADSC_UNMET_DEMAND = 0,      /* entries are report types, 0..6 in the order of enum adsc_element */
    ADSC_UNMET_EVENT = 1,       /* event types, 0..10 */
    ADSC_UNMET_PERIODIC = 2     /* report types, and 7 for the interval */
};

/* of both sides' provider aborts and of an abort indication */
enum adsc_abort_reason {
    ADSC_PROVIDER_FAILURE = 0,
    ADSC_SYSTEM_ERROR = 1,
    ADSC_INVALID_PDU = 2,
    ADSC_SEQUENCE_ERROR = 3,
    ADSC_TIMER_EXPIRY = 4,
    ADSC_NO_CONTACT = 5,
    ADSC_UNDEFINED_ERROR = 6,
    ADSC_END_NOT_ACCEPTED = 7
};

/* ---- the link record. It is plain octets, numbers in four with the most significant first: it may be stored, copied and sent to another machine. Every
 * call checks it, so that a damaged one is refused (29) or is at least a link that the tables speak of. */

enum adsc_link_place {
    ADSC_LINK_SETTINGS = 0,     /* ten numbers in watch order */
    ADSC_LINK_LEFT = 40,        /* the seconds each has left; 0 where it does not run */
    ADSC_LINK_DC = 80,          /* the states, an octet each */
    ADSC_LINK_EC = 81,
    ADSC_LINK_PC = 82,
    ADSC_LINK_EM = 83,
    ADSC_LINK_LI = 84,
    ADSC_LINK_ASKED = 85,       /* seconds between periodic reports, 1..ADSC_INTERVAL_MOST: as asked for, where PC is START-PENDING or PENDING, */
    ADSC_LINK_FORCE = 89        /* and as in force, where it is PENDING, ACTIVE or CANCEL. 0 in the other states: none */
};

enum adsc_dc_state { ADSC_DC_IDLE = 0, ADSC_DC_PENDING = 1, ADSC_DC_ACTIVE = 2 };
enum adsc_ec_state { ADSC_EC_IDLE = 0, ADSC_EC_START_PENDING = 1, ADSC_EC_PENDING = 2, ADSC_EC_ACTIVE = 3, ADSC_EC_CANCEL = 4 };
enum adsc_pc_state { ADSC_PC_IDLE = 0, ADSC_PC_START_PENDING = 1, ADSC_PC_PENDING = 2, ADSC_PC_ACTIVE = 3, ADSC_PC_CANCEL = 4 };
enum adsc_em_state { ADSC_EM_IDLE = 0, ADSC_EM_ACTIVE = 1, ADSC_EM_MODIFY = 2 };
enum adsc_li_state { ADSC_LI_IDLE = 0, ADSC_LI_START = 1, ADSC_LI_ACTIVE = 2, ADSC_LI_END = 3 };

/* For the readers of this header alone: four octets, the most significant first. */
static inline uint32_t adsc_number_at(const uint8_t *at)
{
    return (uint32_t)at[0] << 24 | (uint32_t)at[1] << 16 | (uint32_t)at[2] << 8 | at[3];
}

/* What a desk can show of a record. The record is one that adsc_open or another call has made or accepted: the readers check nothing in it.
 *
 * The setting of a timer, */
static inline uint32_t adsc_link_setting(const uint8_t *link, size_t timer)
{
    return timer < ADSC_TIMERS ? adsc_number_at(link + ADSC_LINK_SETTINGS + 4 * timer) : 0;
}

/* and the seconds that it has left; 0 where it does not run. */
static inline uint32_t adsc_link_left(const uint8_t *link, size_t timer)
{
    return timer < ADSC_TIMERS ? adsc_number_at(link + ADSC_LINK_LEFT + 4 * timer) : 0;
}

/* The seconds between periodic reports that are asked for and not yet answered, */
static inline uint32_t adsc_link_asked(const uint8_t *link)
{
    return adsc_number_at(link + ADSC_LINK_ASKED);
}

/* and those in force; 0 where there are none. */
static inline uint32_t adsc_link_force(const uint8_t *link)
{
    return adsc_number_at(link + ADSC_LINK_FORCE);
}

/* The seconds until the next periodic report is due: what PC2 has left without its setting, the grace. Only of use where PC2 runs. A desk shows it as "next
 * report due in" while it is above 0. At 0 and below the grace is running: "overdue by" so many seconds, and what PC2 has left as "until the link ends"
 * (examples/host/desk.c). */
static inline int32_t adsc_link_due(const uint8_t *link)
{
    return (int32_t)(adsc_link_left(link, ADSC_PC2) - adsc_link_setting(link, ADSC_PC2));
}

/* ---- the answer of an accepted call: what to do, in order. The readers below spare the host its layout. */

enum adsc_action {
    ADSC_START_REQUEST = 1,     /* D-START, with the PDU. The PDU of an answer goes with its first request; a second goes without data */
    ADSC_DATA_REQUEST = 2,      /* D-DATA, with the PDU */
    ADSC_END_REQUEST = 3,       /* D-END, with the PDU of a cancel-all, else without data */
    ADSC_ABORT_REQUEST = 4,     /* D-ABORT, with a provider abort; a user abort without data */
    ADSC_INDICATION = 5,        /* to the user: what this call brought, as an indication or a confirmation */
    ADSC_ABORT_INDICATION = 6,  /* the link has ended; adsc_answer_reason says why */
    ADSC_PEER_ABORT = 7,        /* the same, by the aircraft's user */
    ADSC_LATE = 8,              /* this data came after the end request and was set aside unread */
    ADSC_STOP_TIMER = 16,       /* plus the timer. For a display or a log: the record counts the seconds, and the host needs no timer of its own */
    ADSC_START_TIMER = 32       /* plus the timer, which has its setting left; PC2 has the interval in force and its setting */
};

enum adsc_answer_place { ADSC_ANSWER_REASON = 0, ADSC_ANSWER_ACTIONS = 4, ADSC_ANSWER_SENT = 13 };

/* The reason of an abort indication; 0 where there is none. */
static inline uint32_t adsc_answer_reason(const uint8_t *answer)
{
    return adsc_number_at(answer + ADSC_ANSWER_REASON);
}

/* How many actions there are, 0 to ADSC_ACTIONS_MOST, */
static inline size_t adsc_answer_actions(const uint8_t *answer)
{
    return answer[ADSC_ANSWER_ACTIONS];
}

/* and one of them, counted from 0; 0 where there is none. */
static inline uint8_t adsc_answer_action(const uint8_t *answer, size_t i)
{
    return i < adsc_answer_actions(answer) ? answer[ADSC_ANSWER_ACTIONS + 1 + i] : 0;
}

/* How many octets the PDU to send has, 0 (none goes) to ADSC_SENT_MOST, */
static inline size_t adsc_answer_sent(const uint8_t *answer)
{
    return answer[ADSC_ANSWER_SENT];
}

/* and where they stand. */
static inline const uint8_t *adsc_answer_sent_octets(const uint8_t *answer)
{
    return answer + ADSC_ANSWER_SENT + 1;
}

/* ---- a link */

/* A new link record, everything IDLE, from ten settings in watch order. Refuses: 3, 6 (a record that is not of 93 octets). */
uint8_t adsc_open(const uint32_t *settings, size_t settings_length, uint8_t *link, size_t link_length);

/* Calls on a record. Each refuses 29 first, and 6 last: an answer of less than 31 octets; what stands between is said below. */

/* The user asks: a ground PDU as numbers. The first contract is a start request. Refuses: 29, 1, then as adsc_write_ground 5, 10, 15, then 6. A kind
 * or a contract to cancel that names nothing is no request: 1. */
uint8_t adsc_request(uint8_t *link, size_t link_length, const uint32_t *numbers, size_t numbers_length, uint8_t *answer, size_t answer_length);

/* The user ends the link at once. Refuses: 29, 1 (LI is IDLE), 6. */
uint8_t adsc_user_abort(uint8_t *link, size_t link_length, uint8_t *answer, size_t answer_length);

/* Seconds pass, 0 to ADSC_SECONDS_MOST in one call; where they use up a timer the link ends, abort 4. Refuses: 29, 4, 6. */
uint8_t adsc_elapse(uint8_t *link, size_t link_length, uint32_t seconds, uint8_t *answer, size_t answer_length);

/* From below. The octets are the user data, an aircraft PDU. One that does not read ends the link, abort 2, one that is not due now abort 3: these are
 * answers and no refusals. Each refuses: 29, 2 (not due in LI's state), 6. */

/* D-START confirmation, accepted. */
uint8_t adsc_start_confirm(uint8_t *link, size_t link_length, const uint8_t *octets, size_t octets_length, uint8_t *answer, size_t answer_length);

/* D-START confirmation, rejected: abort 5. */
uint8_t adsc_start_rejected(uint8_t *link, size_t link_length, uint8_t *answer, size_t answer_length);

/* D-DATA indication. */
uint8_t adsc_data(uint8_t *link, size_t link_length, const uint8_t *octets, size_t octets_length, uint8_t *answer, size_t answer_length);

/* D-END confirmation. */
uint8_t adsc_end_confirm(uint8_t *link, size_t link_length, uint8_t *answer, size_t answer_length);

/* D-ABORT indication, originator user. */
uint8_t adsc_peer_abort(uint8_t *link, size_t link_length, uint8_t *answer, size_t answer_length);

/* D-ABORT indication, originator provider. Octets that are no provider abort give reason 6. */
uint8_t adsc_air_abort(uint8_t *link, size_t link_length, const uint8_t *octets, size_t octets_length, uint8_t *answer, size_t answer_length);

/* D-P-ABORT indication: reason 0. */
uint8_t adsc_down(uint8_t *link, size_t link_length, uint8_t *answer, size_t answer_length);

/* ---- the flight log: every accepted call of one link, in blocks of ADSC_BLOCK_OCTETS octets that a host keeps one after the other, on a disk say. Blocks are
 * numbered from 0. Octets 0 to 3 of a block are its number, 4 and 5 the length of its payload, from 6 on the payload and zeros, 510 and 511 a check: every
 * single octet that is changed later is found. Numbers go most significant octet first.
 *
 * To keep a log: adsc_block_open makes block 0, adsc_block_append records the settings and then each call that was accepted, right after the call. Where a
 * block has no room (6) finish it, keep it, open the next number and append there. adsc_block_finish makes a block whole, at any time: it may be kept then, and
 * again with more in it, in place, as its number stays. To read one: adsc_block_play, block by block from number 0. A block that was cut off while it was
 * written is refused there, 20 where the log ends in it, else 18; the record stands as the blocks before it left it, and the log may go on with that number
 * (examples/host/log.c). */

/* The kinds of calls that a record has. */
enum adsc_call {
    ADSC_CALL_SETTINGS = 0,         /* adsc_open: the first record and no other. Its data: the settings, as a link record starts with them */
    ADSC_CALL_REQUEST = 1,          /* adsc_request. Its data: the PDU, as adsc_write_ground writes it */
    ADSC_CALL_USER_ABORT = 2,
    ADSC_CALL_ELAPSE = 3,           /* adsc_elapse: it alone has seconds */
    ADSC_CALL_START_CONFIRM = 4,    /* its data: the octets that came, of more than ADSC_KEPT_MOST the first of them */
    ADSC_CALL_START_REJECTED = 5,
    ADSC_CALL_DATA = 6,             /* the same */
    ADSC_CALL_END_CONFIRM = 7,
    ADSC_CALL_PEER_ABORT = 8,
    ADSC_CALL_AIR_ABORT = 9,        /* the same */
    ADSC_CALL_DOWN = 10
};

/* An empty block of this number: the number, zeros. Refuses: 5 (a number not below ADSC_BLOCKS_MOST: the log is at its end), 6 (a block that is not of 512
 * octets). */
uint8_t adsc_block_open(uint8_t *block, size_t block_length, uint32_t number);

/* Records a call behind those that the block has: the kind, four octets of seconds, an octet of length, the data; the payload length moves on, and every other
 * octet stays, the check too. Seconds are those of an elapse, else 0. Refuses, in this order: 20 (a block that is not of 512 octets, or whose number or payload
 * length is none that adsc_block_open and this function make: not below ADSC_BLOCKS_MOST, over ADSC_PAYLOAD_MOST), 5 (a kind over ADSC_CALL_DOWN; seconds not 0,
 * where the call is no elapse; data, where the call has none; settings that are not ADSC_SETTINGS_OCTETS octets), 6 (the payload and the record are over
 * ADSC_PAYLOAD_MOST together). */
uint8_t adsc_block_append(uint8_t *block, size_t block_length, uint8_t kind, uint32_t seconds, const uint8_t *data, size_t data_length);

/* Zeros behind the payload, and the check. Refuses: 20 as adsc_block_append. */
uint8_t adsc_block_finish(uint8_t *block, size_t block_length);

/* Judges a block, which is to have this number, and plays its records on the link: the record is then as the calls had left it. A link record of 93 zeros is
 * one that has no settings yet, as before block 0. Refuses, in this order: 29 (a record that is neither good nor of zeros), 20 (a block that is not of 512
 * octets), 18, 19 (also where the number is not below ADSC_BLOCKS_MOST), 20: a payload length over ADSC_PAYLOAD_MOST, octets behind the payload that are not
 * zero, and of each record that it does not lie in the payload wholly, a kind over ADSC_CALL_DOWN, data over ADSC_KEPT_MOST, seconds or data that its call does
 * not use, settings that are not the first record of the log or are of neither length, another first record, a request that does not read, a call that the
 * link refuses. Settings have ADSC_SETTINGS_OCTETS octets, or 36, and then ADSC_LI1 is at ADSC_SECONDS_MOST. A block is played wholly or not at all. One without
 * records is good and leaves the record. */
uint8_t adsc_block_play(uint8_t *link, size_t link_length, const uint8_t *block, size_t block_length, uint32_t number);

/* What a block holds, for a host that looks at the calls themselves. The block is one that these functions have made or taken: the readers check nothing
 * in it. Its number, */
static inline uint32_t adsc_block_number(const uint8_t *block)
{
    return adsc_number_at(block);
}

/* where its first record starts, */
static inline size_t adsc_block_first(void)
{
    return 6;
}

/* and where its records end: a record starts at each place that adsc_record_next gives before it. */
static inline size_t adsc_block_end(const uint8_t *block)
{
    return adsc_block_first() + ((size_t)block[4] << 8 | block[5]);
}

/* Of the record that starts at a place its kind, enum adsc_call, */
static inline uint8_t adsc_record_kind(const uint8_t *block, size_t at)
{
    return block[at];
}

/* its seconds, */
static inline uint32_t adsc_record_seconds(const uint8_t *block, size_t at)
{
    return adsc_number_at(block + at + 1);
}

/* how many octets of data it has, */
static inline size_t adsc_record_length(const uint8_t *block, size_t at)
{
    return block[at + 5];
}

/* where they stand, */
static inline const uint8_t *adsc_record_data(const uint8_t *block, size_t at)
{
    return block + at + 6;
}

/* and where the next record starts. */
static inline size_t adsc_record_next(const uint8_t *block, size_t at)
{
    return at + 6 + adsc_record_length(block, at);
}

/* ---- PDUs, without a link */

/* An aircraft PDU as ADSC_AIR_NUMBERS numbers and ADSC_LIST_OCTETS octets of list, zeros where it has no entries; longer buffers keep what follows.
 * Refuses: 16, then what the bits meet first of 7, 8, 9, 10, 12, then 13, 14, then 6. */
uint8_t adsc_read_air(const uint8_t *octets, size_t octets_length, uint32_t *numbers, size_t numbers_length, uint8_t *list, size_t list_length);

/* A ground PDU as ADSC_GROUND_NUMBERS numbers. Refuses: 16, then what the bits meet first of 7, 8, 9, 10, 15, then 13, 14, then 6. */
uint8_t adsc_read_ground(const uint8_t *octets, size_t octets_length, uint32_t *numbers, size_t numbers_length);

/* Numbers as a PDU, at the front of out; octets past its end stay, and *written says how many it has. A list with fewer octets than entries has zeros
 * for the others. Refuses: in the order of the fields 5, 10, 12, then 6. A kind or a scale that names nothing is 5. */
uint8_t adsc_write_air(const uint32_t *numbers, size_t numbers_length, const uint8_t *list, size_t list_length, uint8_t *out, size_t out_length, size_t *written);

/* The same. Refuses: in the order of the fields 5, 10, 15, then 6. An air speed or a profile that names nothing is 5 too. */
uint8_t adsc_write_ground(const uint32_t *numbers, size_t numbers_length, uint8_t *out, size_t out_length, size_t *written);

#ifdef __cplusplus
}
#endif

#endif
