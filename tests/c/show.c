/* Results of calls as lines: what they tell is read off them only where the call is accepted. */
#include "show.h"

#include <stdio.h>

/* What a refusal is about. */
static const char *refused_part(unsigned refusal)
{
    switch (refusal) {
    case PLANNER_REFUSED_LENGTH: return "the length";
    case PLANNER_REFUSED_KIND: return "a kind";
    case PLANNER_REFUSED_YARDS: return "the yard records";
    case PLANNER_REFUSED_HAULS: return "the haul records";
    case PLANNER_REFUSED_AMOUNT: return "an amount";
    case PLANNER_REFUSED_FOUR_POINTS: return "the four-point rule";
    case PLANNER_REFUSED_K: return "k";
    case PLANNER_REFUSED_SET: return "the set";
    case PLANNER_REFUSED_AREA: return "the area";
    case PLANNER_REFUSED_LOADS: return "the loads";
    case PLANNER_REFUSED_TARIFF: return "the tariff";
    case PLANNER_REFUSED_RATE: return "a rate";
    case PLANNER_REFUSED_DISTANCE: return "a distance";
    case PLANNER_REFUSED_SHUT_YARD: return "the yard that shuts";
    case PLANNER_REFUSED_OFFERS: return "the offers";
    case PLANNER_REFUSED_EXCESS: return "the excess of offers over hauls";
    default: return "a question without a name";
    }
}

/* Whether the call is accepted; begins its line, which is whole where it is refused. */
static int accepted(const char *call, uint64_t result)
{
    unsigned refusal = planner_refusal(result);
    printf("%s: ", call);
    if (refusal != PLANNER_ACCEPTED)
        printf("refused %u, %s\n", refusal, refused_part(refusal));
    return refusal == PLANNER_ACCEPTED;
}

void show_counts(const char *call, uint64_t result)
{
    if (accepted(call, result))
        printf("yards %zu, farms %zu\n", planner_yards(result), planner_farms(result));
}

static const char *kind_of(const uint8_t *record)
{
    switch (record[0]) {
    case PLANNER_KIND_OPEN: return "open";
    case PLANNER_KIND_FARM: return "farm";
    case PLANNER_KIND_TOTAL: return "total";
    case PLANNER_KIND_MOVES: return "moves";
    default: return "no kind of a plan";
    }
}

/* Kind, bytes 1 and 2 and amount, and the loads where byte 3 has them. */
static void show_record(const uint8_t *record)
{
    printf("; %s %u %u %u", kind_of(record), record[1], record[2], (unsigned)planner_amount(record));
    if (record[3] != 0)
        printf(" loads %u", record[3]);
}

void show_plan(const char *call, uint64_t result, const uint8_t *area)
{
    if (!accepted(call, result))
        return;
    printf("bytes %zu, moves %u", planner_bytes(result), (unsigned)planner_moves(result));
    for (size_t at = 0; at < planner_bytes(result); at += PLANNER_RECORD)
        show_record(area + at);
    printf("\n");
}

/* A second yard and its haul are there only where the call found one. */
void show_second(const char *call, uint64_t result)
{
    if (!accepted(call, result))
        return;
    if (planner_found(result))
        printf("yard %zu, haul %u\n", planner_second_yard(result), (unsigned)planner_second_haul(result));
    else
        printf("none\n");
}

void show_change(const char *call, uint64_t result)
{
    if (accepted(call, result))
        printf("change %lld\n", (long long)planner_change(result));
}

void show_sum(const char *call, uint64_t result)
{
    if (accepted(call, result))
        printf("sum %llu\n", (unsigned long long)planner_sum(result));
}
