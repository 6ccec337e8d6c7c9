/* asn1c's values as the flat numbers of the archive. */
#include "speed.h"

static void angle(uint32_t *n, long sign, long degrees, long minutes, long tenths)
{
    n[0] = sign;
    n[1] = degrees;
    n[2] = minutes;
    n[3] = tenths;
}

static void fix(uint32_t *n, const Position_t *p, const DateTime_t *t, const Merit_t *m, const Address_t *address)
{
    const Latitude_t *la = &p->latitude;
    const Longitude_t *lo = &p->longitude;
    angle(n + 5, la->sign, la->degrees, la->minutes, la->tenth_seconds);
    angle(n + 9, lo->sign, lo->degrees, lo->minutes, lo->tenth_seconds);
    n[13] = p->level;
    n[14] = t->date.year;
    n[15] = t->date.month;
    n[16] = t->date.day;
    n[17] = t->time.seconds != NULL;
    n[18] = t->time.hours;
    n[19] = t->time.minutes;
    n[20] = t->time.seconds ? *t->time.seconds : 0;
    n[21] = m->accuracy;
    n[22] = m->units != 0;
    n[23] = m->avoidance != 0;
    if (address)
        n[24] = address->buf[0] << 16 | address->buf[1] << 8 | address->buf[2];
}

/* Presence bits as one number, the first as its highest bit. */
static uint32_t mask(int n, void *const *parts)
{
    uint32_t bits = 0;
    for (int i = 0; i < n; i++)
        bits = bits << 1 | (parts[i] != NULL);
    return bits;
}
#define MASK(...) mask(sizeof (void *[]){__VA_ARGS__} / sizeof (void *), (void *[]){__VA_ARGS__})

static long part(const long *number)
{
    return number ? *number : 0;
}

static void ground_vector(uint32_t *n, const GroundVector_t *v)
{
    if (v == NULL)
        return;
    n[25] = MASK(v->track, v->ground_speed, v->vertical_rate);
    n[26] = part(v->track);
    n[27] = part(v->ground_speed);
    n[28] = part(v->vertical_rate);
}

static void air_vector(uint32_t *n, const AirVector_t *v)
{
    if (v == NULL)
        return;
    const AirSpeed_t *s = v->air_speed;
    n[29] = MASK(v->heading, v->air_speed, v->vertical_rate);
    n[30] = part(v->heading);
    if (s) {
        n[31] = s->present - 1;
        n[32] = s->present == AirSpeed_PR_mach ? s->choice.mach : s->present == AirSpeed_PR_both ? s->choice.both.mach : 0;
        n[33] = s->present == AirSpeed_PR_ias ? s->choice.ias : s->present == AirSpeed_PR_both ? s->choice.both.ias : 0;
    }
    n[34] = part(v->vertical_rate);
}

static void weather(uint32_t *n, const Weather_t *w)
{
    if (w == NULL)
        return;
    n[35] = MASK(w->wind_speed, w->wind_direction, w->temperature, w->turbulence);
    n[36] = part(w->wind_speed);
    n[37] = part(w->wind_direction);
    n[38] = part(w->temperature);
    n[39] = part(w->turbulence);
}

static void report(uint32_t *n, const NULL_t *ack, const Report_t *r)
{
    n[1] = ack != NULL;
    n[4] = MASK(r->address, r->projected_profile, r->ground_vector, r->air_vector, r->weather, r->short_term_intent, r->extended_profile);
    fix(n, &r->position, &r->time_stamp, &r->merit, r->address);
    ground_vector(n, r->ground_vector);
    air_vector(n, r->air_vector);
    weather(n, r->weather);
}

static void emergency(uint32_t *n, const NULL_t *ack, const EmergencyReport_t *r)
{
    n[1] = ack != NULL;
    n[4] = MASK(r->address, r->ground_vector);
    fix(n, &r->position, &r->time_stamp, &r->merit, r->address);
    ground_vector(n, r->ground_vector);
}

static void negative(uint32_t *n, uint8_t *list, const NegativeAck_t *a)
{
    n[1] = a->request_type;
    n[2] = a->reason.present - 1;
    if (a->reason.present != Reason_PR_capacity)
        return;
    const Names_t *names = &a->reason.choice.capacity;
    n[3] = names->list.count;
    for (int i = 0; i < names->list.count; i++)
        for (int k = 0; k < 8; k++)
            list[8 * i + k] = names->list.array[i]->buf[k];
}

static void noncompliance(uint32_t *n, uint8_t *list, const Noncompliance_t *a)
{
    n[1] = a->present - 1;
#define ENTRIES(kind) \
    for (int i = 0; i < a->choice.kind.list.count; i++) \
        list[n[3]++] = *a->choice.kind.list.array[i]
    switch (a->present) {
    case Noncompliance_PR_demand: ENTRIES(demand); break;
    case Noncompliance_PR_event: ENTRIES(event); break;
    default: ENTRIES(periodic); break;
    }
}

void flat_air(const Aircraft_t *a, uint32_t *n, uint8_t *list)
{
    n[0] = a->present - 1;
    switch (a->present) {
    case Aircraft_PR_demand_report: report(n, a->choice.demand_report.ack, &a->choice.demand_report.report); break;
    case Aircraft_PR_emergency: emergency(n, a->choice.emergency.ack, &a->choice.emergency.report); break;
    case Aircraft_PR_event_report:
        n[2] = a->choice.event_report.event_type;
        report(n, a->choice.event_report.ack, &a->choice.event_report.report);
        break;
    case Aircraft_PR_negative_ack: negative(n, list, &a->choice.negative_ack); break;
    case Aircraft_PR_noncompliance: noncompliance(n, list, &a->choice.noncompliance); break;
    case Aircraft_PR_periodic_report: report(n, a->choice.periodic_report.ack, &a->choice.periodic_report.report); break;
    case Aircraft_PR_positive_ack: n[1] = a->choice.positive_ack; break;
    case Aircraft_PR_provider_abort: n[1] = a->choice.provider_abort; break;
    default: break;
    }
}

static void interval(uint32_t *n, const Interval_t *t)
{
    n[2] = t ? t->present - 1 : 1;      /* absent: the default, 5 minutes */
    n[3] = t ? t->present == Interval_PR_seconds ? t->choice.seconds : t->choice.minutes : 5;
}

static uint32_t modulus(const Modulus_t *m)
{
    return m ? *m : 0;
}

static void periodic(uint32_t *n, const PeriodicContract_t *c)
{
    n[1] = MASK(c->address, c->projected_profile, c->ground_vector, c->air_vector, c->weather, c->short_term_intent, c->extended_profile);
    interval(n, c->interval);
    n[4] = modulus(c->address);
    n[5] = modulus(c->projected_profile);
    n[6] = modulus(c->ground_vector);
    n[7] = modulus(c->air_vector);
    n[8] = modulus(c->weather);
}

static void air_speed_change(uint32_t *n, const AirSpeedChange_t *c)
{
    n[13] = c->present - 1;
    n[14] = c->present == AirSpeedChange_PR_mach ? c->choice.mach : c->choice.ias;
}

static void profile_request(uint32_t *n, const ProfileRequest_t *r)
{
    n[17] = r->present - 1;
    n[18] = r->present == ProfileRequest_PR_time ? r->choice.time : r->choice.points;
}

static void event(uint32_t *n, const EventContract_t *e)
{
    n[1] = MASK(e->lateral_deviation, e->vertical_rate, e->altitude_range, e->way_point, e->air_speed, e->ground_speed, e->heading,
                e->extended_profile, e->merit, e->track_angle, e->altitude);
    n[9] = part(e->lateral_deviation);
    n[10] = part(e->vertical_rate);
    n[11] = e->altitude_range ? e->altitude_range->ceiling : 0;
    n[12] = e->altitude_range ? e->altitude_range->floor : 0;
    if (e->air_speed)
        air_speed_change(n, e->air_speed);
    n[15] = part(e->ground_speed);
    n[16] = part(e->heading);
    if (e->extended_profile)
        profile_request(n, e->extended_profile);
    n[19] = part(e->track_angle);
    n[20] = part(e->altitude);
}

void flat_ground(const Ground_t *g, uint32_t *n)
{
    const DemandContract_t *d = &g->choice.demand_contract;
    n[0] = g->present - 1;
    switch (g->present) {
    case Ground_PR_cancel_contract: n[1] = g->choice.cancel_contract; break;
    case Ground_PR_demand_contract:
        n[1] = MASK(d->address, d->projected_profile, d->ground_vector, d->air_vector, d->weather, d->short_term_intent, d->extended_profile);
        break;
    case Ground_PR_event_contract: event(n, &g->choice.event_contract); break;
    case Ground_PR_modify_emergency: interval(n, &g->choice.modify_emergency); break;
    case Ground_PR_periodic_contract: periodic(n, &g->choice.periodic_contract); break;
    case Ground_PR_provider_abort: n[1] = g->choice.provider_abort; break;
    default: break;
    }
}
