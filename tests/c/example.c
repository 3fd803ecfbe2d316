/* The planner from C: makes a sheet from tables and plans it; reads document 01's sheet S, prices {0, 2} and makes both
 * plans; open plans at the highest fee and haul and with loads; the same calls by the house tariff and by a given one;
 * second yards and yards that shut; and offers. */
#include "show.h"

#include <stdio.h>
#include <string.h>

/* the tables of sheets/loads.csv, in cents: four yards' fees, six farms' loads (0 is read as 1) and hauls of one load
 * to each yard */
#define YARDS 4
#define FARMS 6
static const uint32_t fees[YARDS] = {60000, 90000, 45000, 40000};
static const uint8_t loads[FARMS] = {3, 20, 0, 18, 1, 12};
static const uint32_t hauls[FARMS][YARDS] = {
    {1200, 5400, 9000, 13200}, {2100, 2100, 5700, 9900}, {6000, 1800, 1800, 6000},
    {8700, 4500, 900, 3300},   {9900, 5700, 2100, 2100}, {13800, 9600, 6000, 1800},
};

/* S: fees 1, 4, 2; hauls 1, 3, 9 of farm 0, 5, 1, 5 of farm 1, 9, 5, 1 of farm 2 */
static const uint8_t sheet[96] = {
    PLANNER_KIND_YARD, 0, 0, 0, 1, 0, 0, 0, PLANNER_KIND_YARD, 1, 0, 0, 4, 0, 0, 0, PLANNER_KIND_YARD, 2, 0, 0, 2, 0, 0, 0,
    PLANNER_KIND_HAUL, 0, 0, 0, 1, 0, 0, 0, PLANNER_KIND_HAUL, 1, 0, 0, 3, 0, 0, 0, PLANNER_KIND_HAUL, 2, 0, 0, 9, 0, 0, 0,
    PLANNER_KIND_HAUL, 0, 1, 0, 5, 0, 0, 0, PLANNER_KIND_HAUL, 1, 1, 0, 1, 0, 0, 0, PLANNER_KIND_HAUL, 2, 1, 0, 5, 0, 0, 0,
    PLANNER_KIND_HAUL, 0, 2, 0, 9, 0, 0, 0, PLANNER_KIND_HAUL, 1, 2, 0, 5, 0, 0, 0, PLANNER_KIND_HAUL, 2, 2, 0, 1, 0, 0, 0,
};

/* one yard and one farm, at the highest fee and haul: 50,000,000 and 1,000,000 */
static const uint8_t dearest[16] = {
    PLANNER_KIND_YARD, 0, 0, 0, 0x80, 0xF0, 0xFA, 0x02, PLANNER_KIND_HAUL, 0, 0, 0, 0x40, 0x42, 0x0F, 0x00,
};

/* fees 1 and 8, and a farm of ten loads with hauls 2 and 1: yard 1 costs 8 + 10, yard 0 costs 1 + 20 */
static const uint8_t ten_loads[32] = {
    PLANNER_KIND_YARD, 0, 0, 0, 1, 0, 0, 0, PLANNER_KIND_YARD, 1, 0, 0, 8, 0, 0, 0,
    PLANNER_KIND_HAUL, 0, 0, 10, 2, 0, 0, 0, PLANNER_KIND_HAUL, 1, 0, 10, 1, 0, 0, 0,
};

/* one yard and a farm of 21 loads */
static const uint8_t too_many_loads[16] = {PLANNER_KIND_YARD, 0, 0, 0, 1, 0, 0, 0, PLANNER_KIND_HAUL, 0, 0, 21, 2, 0, 0, 0};

/* fees 100 and 300, distances 120 and 250 of farm 0, 450 and 100 of farm 1; by the house tariff hauls 4,680 and 9,100,
 * 14,700 and 4,000 */
static const uint8_t distances[48] = {
    PLANNER_KIND_YARD, 0, 0, 0, 100, 0, 0, 0, PLANNER_KIND_YARD, 1, 0, 0, 44, 1, 0, 0,
    PLANNER_KIND_HAUL, 0, 0, 0, 120, 0, 0, 0, PLANNER_KIND_HAUL, 1, 0, 0, 250, 0, 0, 0,
    PLANNER_KIND_HAUL, 0, 1, 0, 194, 1, 0, 0, PLANNER_KIND_HAUL, 1, 1, 0, 100, 0, 0, 0,
};

/* up to 200 at 10 cents, then up to 450 at 1 cent: hauls 1,200 and 2,050, 2,250 and 1,000 */
static const uint8_t tariff[16] = {PLANNER_KIND_BAND, 0, 0, 0, 200, 0, 10, 0, PLANNER_KIND_BAND, 1, 200, 0, 194, 1, 1, 0};

/* the same up to 449 only, and with a rate of 11 cents in its second band */
static const uint8_t shorter_tariff[16] = {PLANNER_KIND_BAND, 0, 0, 0, 200, 0, 10, 0, PLANNER_KIND_BAND, 1, 200, 0, 193, 1, 1, 0};
static const uint8_t rising_tariff[16] = {PLANNER_KIND_BAND, 0, 0, 0, 200, 0, 10, 0, PLANNER_KIND_BAND, 1, 200, 0, 194, 1, 11, 0};

/* {0, 1, 2} and {0, 1} */
static const uint32_t three_yards = 1u << 0 | 1u << 1 | 1u << 2, two_yards = 1u << 0 | 1u << 1;

/* offers for S of 2, 5 and 3, which just meet all three fees */
static const uint8_t offers[24] = {
    PLANNER_KIND_OFFER, 0, 0, 0, 2, 0, 0, 0, PLANNER_KIND_OFFER, 0, 1, 0, 5, 0, 0, 0, PLANNER_KIND_OFFER, 0, 2, 0, 3, 0, 0, 0,
};

/* offers for the distances of 4,780 and 4,300: by the house tariff hauls and fees 4,680 + 100 and 4,000 + 300 */
static const uint8_t house_offers[16] = {
    PLANNER_KIND_OFFER, 0, 0, 0, 0xAC, 0x12, 0, 0, PLANNER_KIND_OFFER, 0, 1, 0, 0xCC, 0x10, 0, 0,
};

static uint8_t area[PLANNER_MOST_AREA];

/* The yard records of the tables' sheet. */
static void put_yards(uint8_t *made)
{
    for (uint8_t yard = 0; yard < YARDS; yard++)
        planner_put_record(made + PLANNER_RECORD * yard, PLANNER_KIND_YARD, yard, 0, 0, fees[yard]);
}

/* A farm's haul records, behind those of the yards and of the farms before it. */
static void put_farm(uint8_t *made, uint8_t farm)
{
    uint8_t *stretch = made + PLANNER_RECORD * YARDS * (1 + farm);
    for (uint8_t yard = 0; yard < YARDS; yard++)
        planner_put_record(stretch + PLANNER_RECORD * yard, PLANNER_KIND_HAUL, yard, farm, loads[farm], hauls[farm][yard]);
}

/* A sheet made of tables, and its plan; the amounts of the first yard and of the last haul as they stand in it. */
static void show_made_sheet(void)
{
    uint8_t made[PLANNER_RECORD * YARDS * (1 + FARMS)];
    put_yards(made);
    for (uint8_t farm = 0; farm < FARMS; farm++)
        put_farm(made, farm);
    printf("made: first amount %u, last amount %u\n", (unsigned)planner_amount(made),
           (unsigned)planner_amount(made + sizeof made - PLANNER_RECORD));
    show_counts("read, made", planner_read(made, sizeof made));
    show_plan("open plan, made", planner_open_plan(made, sizeof made, area, sizeof area), area);
}

/* The bytes with another one at a place; no longer than S. */
static const uint8_t *changed(const uint8_t *bytes, size_t length, size_t at, uint8_t byte)
{
    static uint8_t copy[sizeof sheet];
    memcpy(copy, bytes, length);
    copy[at] = byte;
    return copy;
}

/* S with another byte. */
static void show_changed_sheet(const char *call, size_t at, uint8_t byte)
{
    show_counts(call, planner_read(changed(sheet, sizeof sheet, at, byte), sizeof sheet));
}

/* What reading refuses, by each of its questions. */
static void show_refused_sheets(void)
{
    show_counts("read, one byte less", planner_read(sheet, sizeof sheet - 1));
    show_changed_sheet("read, another kind", 24, PLANNER_KIND_FARM);
    show_changed_sheet("read, yard 1 as yard 2", 9, 2);
    show_changed_sheet("read, a haul of farm 0 as of farm 1", 26, 1);
    show_counts("read, 21 loads", planner_read(too_many_loads, sizeof too_many_loads));
    show_changed_sheet("read, a fee of 50,331,649", 7, 3);
    show_changed_sheet("read, a haul of 10 for 9", 44, 10);
}

/* A farm's hauls where they lie in the sheet; byte by byte they are the same. */
static void show_farm(size_t farm)
{
    const uint8_t *stretch = sheet + planner_farm_from(sheet, sizeof sheet, farm);
    size_t length = planner_farm_len(sheet, sizeof sheet, farm);
    printf("farm %zu: bytes %zu", farm, length);
    for (size_t at = 0; at < length; at += PLANNER_RECORD)
        printf(" %u", (unsigned)planner_amount(stretch + at));
    for (size_t at = 0; at < length; at++)
        if (planner_farm_byte(sheet, sizeof sheet, farm, at) != stretch[at])
            printf(" byte %zu differs", at);
    printf("\n");
}

/* Pricing and both plans of S, and what they refuse; open plans of two other sheets. */
static void show_plans(void)
{
    const size_t len = sizeof sheet;
    show_plan("pricing {0, 2}", planner_price(sheet, len, 1u << 0 | 1u << 2, area, sizeof area), area);
    show_plan("open plan", planner_open_plan(sheet, len, area, sizeof area), area);
    show_plan("limited plan, k = 2", planner_limited_plan(sheet, len, 2, area, sizeof area), area);
    show_plan("limited plan, k = 4", planner_limited_plan(sheet, len, 4, area, sizeof area), area);
    show_plan("pricing nothing", planner_price(sheet, len, 0, area, sizeof area), area);
    show_plan("open plan, dearest sheet", planner_open_plan(dearest, sizeof dearest, area, sizeof area), area);
    show_plan("open plan, ten loads", planner_open_plan(ten_loads, sizeof ten_loads, area, sizeof area), area);
}

/* A refused call leaves the area as it was. */
static void show_area_after_refusal(void)
{
    static uint8_t before[PLANNER_MOST_AREA];
    memset(area, 0xA5, sizeof area);
    memcpy(before, area, sizeof area);
    show_plan("open plan, area of 63", planner_open_plan(sheet, sizeof sheet, area, 63), area);
    printf("area: %s\n", memcmp(before, area, sizeof area) == 0 ? "as it was" : "changed");
}

/* The distances by the house tariff, whose bytes are not handed over, and by a given tariff. */
static void show_by_tariffs(void)
{
    const size_t len = sizeof distances, given_len = sizeof tariff, shorter_len = sizeof shorter_tariff;
    const uint8_t house = PLANNER_HOUSE_TARIFF, given = PLANNER_GIVEN_TARIFF;
    show_counts("read by the house tariff", planner_read_by(distances, len, house, tariff, 0));
    show_plan("open plan by the house tariff",
              planner_open_plan_by(distances, len, house, tariff, 0, area, sizeof area), area);
    show_plan("limited plan by the house tariff, k = 1",
              planner_limited_plan_by(distances, len, house, tariff, 0, 1, area, sizeof area), area);
    show_plan("pricing {0} by the given tariff",
              planner_price_by(distances, len, given, tariff, given_len, 1u << 0, area, sizeof area), area);
    show_plan("open plan by the given tariff",
              planner_open_plan_by(distances, len, given, tariff, given_len, area, sizeof area), area);
    show_plan("open plan, distances as hauls",
              planner_open_plan_by(distances, len, PLANNER_HAULS, tariff, 0, area, sizeof area), area);
    show_counts("read, half a tariff record", planner_read_by(distances, len, given, tariff, 4));
    show_counts("read, a rate too high", planner_read_by(distances, len, given, rising_tariff, sizeof rising_tariff));
    show_counts("read, a distance too far", planner_read_by(distances, len, given, shorter_tariff, shorter_len));
    show_plan("open plan, a distance too far",
              planner_open_plan_by(distances, len, 255, shorter_tariff, shorter_len, area, sizeof area), area);
}

/* Second yards, and what shutting a yard changes: of S, with loads, by the house tariff. */
static void show_shut_yards(void)
{
    const size_t len = sizeof sheet, far = sizeof distances, ten = sizeof ten_loads;
    const uint8_t written = PLANNER_HAULS, house = PLANNER_HOUSE_TARIFF;
    show_second("second of farm 0 in {0, 1, 2}", planner_second(sheet, len, written, tariff, 0, three_yards, 0));
    show_second("second of farm 1 in {0, 1, 2}", planner_second(sheet, len, written, tariff, 0, three_yards, 1));
    show_second("second of farm 3 in {0, 1, 2}", planner_second(sheet, len, written, tariff, 0, three_yards, 3));
    show_second("second of farm 2 in {1}", planner_second(sheet, len, written, tariff, 0, 1u << 1, 2));
    show_second("second of farm 0 in {3}", planner_second(sheet, len, written, tariff, 0, 1u << 3, 0));
    show_second("second of farm 0 by the house tariff", planner_second(distances, far, house, tariff, 0, two_yards, 0));
    show_change("shut 0 of {0, 1, 2}", planner_shut(sheet, len, written, tariff, 0, three_yards, 0));
    show_change("shut 1 of {0, 1, 2}", planner_shut(sheet, len, written, tariff, 0, three_yards, 1));
    show_change("shut 3 of {0, 1, 2}", planner_shut(sheet, len, written, tariff, 0, three_yards, 3));
    show_change("shut 2 of {0, 1}", planner_shut(sheet, len, written, tariff, 0, two_yards, 2));
    show_change("shut 2 of {2}", planner_shut(sheet, len, written, tariff, 0, 1u << 2, 2));
    show_change("shut 0 of nothing", planner_shut(sheet, len, written, tariff, 0, 0, 0));
    show_change("shut 1 of {0, 1}, ten loads", planner_shut(ten_loads, ten, written, tariff, 0, two_yards, 1));
    show_change("shut 0 of {0, 1}, ten loads", planner_shut(ten_loads, ten, written, tariff, 0, two_yards, 0));
    show_change("shut 0 of {0, 1} by the house tariff", planner_shut(distances, far, house, tariff, 0, two_yards, 0));
    show_change("shut 1 of {0, 1}, distances as hauls", planner_shut(distances, far, written, tariff, 0, two_yards, 1));
}

/* The offers for S with another byte. */
static void show_changed_offers(const char *call, size_t at, uint8_t byte)
{
    const uint8_t *others = changed(offers, sizeof offers, at, byte);
    show_sum(call, planner_floor(sheet, sizeof sheet, PLANNER_HAULS, tariff, 0, others, sizeof offers));
}

/* Offers of the most farms: one amount of farm 0 and another of all others. */
static void put_offers(uint8_t *made, uint32_t first, uint32_t other)
{
    for (uint8_t farm = 0; farm < PLANNER_MOST_FARMS; farm++)
        planner_put_record(made + PLANNER_RECORD * farm, PLANNER_KIND_OFFER, 0, farm, 0, farm == 0 ? first : other);
}

/* One yard at the highest fee, 128 farms of 20 loads at the highest haul. Farm 0 offers the fee too, 20 times
 * 2,500,000: 50,000,000 and 128 times 20 times 1,000,000 together, the full cost of the yard. */
static void show_largest_floor(void)
{
    static uint8_t largest[PLANNER_RECORD * (1 + PLANNER_MOST_FARMS)], made[PLANNER_MOST_OFFERS];
    const size_t len = sizeof largest;
    const uint8_t most = PLANNER_MOST_LOADS, last = PLANNER_MOST_FARMS - 1;
    const uint32_t fee = PLANNER_HIGHEST_FEE, haul = PLANNER_HIGHEST_HAUL;
    planner_put_record(largest, PLANNER_KIND_YARD, 0, 0, 0, fee);
    for (uint8_t farm = 0; farm < PLANNER_MOST_FARMS; farm++)
        planner_put_record(largest + PLANNER_RECORD * (1 + farm), PLANNER_KIND_HAUL, 0, farm, most, haul);
    put_offers(made, haul + fee / most, haul);
    show_sum("floor, largest sum", planner_floor(largest, len, PLANNER_HAULS, tariff, 0, made, sizeof made));
    planner_put_record(made + PLANNER_RECORD * last, PLANNER_KIND_OFFER, 0, last, 0, haul + 1);
    show_sum("floor, one cent above it", planner_floor(largest, len, PLANNER_HAULS, tariff, 0, made, sizeof made));
    put_offers(made, UINT32_MAX, UINT32_MAX);
    show_sum("floor, highest amounts", planner_floor(largest, len, PLANNER_HAULS, tariff, 0, made, sizeof made));
}

/* Offers for S, and by tariffs for the distances; the sum is at most the total of every set, 10 for all yards of S. */
static void show_floors(void)
{
    const size_t len = sizeof sheet, far = sizeof distances, cut = sizeof offers - 1, by_house = sizeof house_offers;
    const uint8_t written = PLANNER_HAULS, house = PLANNER_HOUSE_TARIFF, given = PLANNER_GIVEN_TARIFF;
    show_sum("floor of 2, 5, 3", planner_floor(sheet, len, written, tariff, 0, offers, sizeof offers));
    show_changed_offers("floor of 2, 4, 3", 12, 4);
    show_changed_offers("floor of 3, 5, 3", 4, 3);
    show_changed_offers("floor of 2, 6, 3", 12, 6);
    show_changed_offers("floor of 2, 5, 4", 20, 4);
    show_changed_offers("floor, another kind", 8, PLANNER_KIND_HAUL);
    show_changed_offers("floor, byte 1 not zero", 9, 1);
    show_changed_offers("floor, another farm", 10, 2);
    show_changed_offers("floor, byte 3 not zero", 11, 1);
    show_sum("floor, no record", planner_floor(sheet, len, written, tariff, 0, offers, 0));
    show_sum("floor, a record short", planner_floor(sheet, len, written, tariff, 0, offers, sizeof offers - 8));
    show_sum("floor, a byte short", planner_floor(sheet, len, written, tariff, 0, offers, cut));
    show_sum("floor, sheet and offers a byte short", planner_floor(sheet, len - 1, written, tariff, 0, offers, cut));
    show_sum("floor by the house tariff", planner_floor(distances, far, house, tariff, 0, house_offers, by_house));
    show_sum("floor by the given tariff",
             planner_floor(distances, far, given, tariff, sizeof tariff, house_offers, by_house));
    show_sum("floor by half a tariff record", planner_floor(distances, far, given, tariff, 4, house_offers, 0));
    show_largest_floor();
}

int main(void)
{
    printf("most bytes: sheet %d, area %d, tariff %d, offers %d\n", PLANNER_MOST_SHEET, PLANNER_MOST_AREA,
           PLANNER_MOST_TARIFF, PLANNER_MOST_OFFERS);
    show_made_sheet();
    show_counts("read", planner_read(sheet, sizeof sheet));
    show_refused_sheets();
    show_farm(1);
    show_farm(3);
    show_plans();
    show_area_after_refusal();
    show_by_tariffs();
    show_shut_yards();
    show_floors();
    return 0;
}
