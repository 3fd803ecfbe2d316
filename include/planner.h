/*
 * The yard planner for C: reads haul sheets, prices sets of yards, tells what shutting a yard changes, makes open and limited plans, and
 * sums offers to a floor under all lists, from hauls or from distances by a tariff (document 01 with papers 1, 2, 3, 5 and 10 of document
 * 02).
 *
 * `./install PREFIX` proves the library, builds it and puts it under PREFIX as lib/libplanner.a, beside this header and
 * planner.pc: compile and link with what `pkg-config --cflags --libs planner` says. It is for Linux on x86-64 and needs
 * memcpy and memset and nothing else.
 *
 * What each call promises is its contract in crates/exports/src/lib.rt: its answer and the area after it for every input; that a priced
 * plan has the set given and a limited plan k yards; that the change on shutting a yard is the full cost of the set without it less that
 * of the set; that the sum of accepted offers is at most the full cost of any non-empty set of yards; and for both plans that no move lowers
 * the cost and that no rival is far cheaper (an open plan costs at most three times a rival's set, the hauls of a limited plan are at most
 * five times those of a rival with as many yards or fewer; the rival carries the same loads and pays by the same tariff).
 *
 * Every call ends, whatever the bytes of the sheet, of the tariff and of the offers, the set, k, the farm, the yard and the lengths are, and
 * either gives its whole result or refuses by the number of the first question that is answered no. The caller sees to three things that no
 * proof can: no pointer is NULL (also where its length is 0), as many bytes as the length says can be read, and in an area written, and an
 * area overlaps no sheet and no tariff. A sheet, a tariff and offers are only read. No call keeps a pointer, allocates memory, or has a
 * state of its own: several threads may call at once, each with its own area.
 *
 * Stack that a call takes, measured on full sheets and rounded up:
 *
 *   bytes    calls
 *   104,000  planner_open_plan_by, planner_limited_plan_by
 *    70,000  planner_open_plan, planner_limited_plan
 *    59,000  planner_read_by, planner_price_by, planner_second, planner_shut, planner_floor
 *    25,000  planner_read, planner_price
 *     1,000  planner_farm_len, planner_farm_from, planner_farm_byte
 *
 * A record has eight bytes, of which byte 0 is the kind. In a sheet, in a plan and in offers byte 1 is a yard number, byte 2 a farm number,
 * byte 3 a farm's loads, bytes 4 to 7 an amount in cents, lowest byte first. Numbers count from 0; bytes not named are zero. Kinds are
 * hexadecimal.
 *
 *   kind   in a sheet of m yards and n farms, in this order
 *   59     for each yard: byte 1 the yard, the amount its fee
 *   48     for each farm, for each yard: byte 1 the yard, byte 2 the farm, byte 3 the farm's loads, 1 to 20, with 0 read as 1, the same
 *          byte in all of a farm's records, the amount the haul of one load
 *
 *   kind   in a tariff, 1 to 16 records
 *   42     for each band: byte 1 the band, bytes 2 and 3 its start, bytes 4 and 5 its end, both in hundreds of metres, bytes 6 and 7 its
 *          rate in cents per hundred metres, each lowest byte first; band 0 starts at 0, each other band where the one before it ends
 *
 * By a tariff the amounts of haul records are distances in hundreds of metres. A haul is the sum over bands of the distance inside the
 * band times its rate; fees are as given. The house tariff has ends 100, 250, 500, 1000, 2000, 4000 and rates 40, 34, 28, 22, 18, 15: a
 * distance of 120 costs 4,680.
 *
 *   kind   in a plan, in this order
 *   4F     for each open yard: byte 1 the yard, the amount its fee
 *   41     for each farm: byte 1 its yard, byte 2 the farm, byte 3 as in its haul records (0 stays 0), the amount the haul of one load, by a
 *          tariff the priced one; the yard is the open one of smallest haul, among equals the one of lower fee (in a limited plan too), and
 *          only then the lower number
 *   54     once: byte 1 the count of open yards, byte 2 n, the amount the total (fees and each farm's loads times its haul; in a limited
 *          plan without the fees)
 *   4D     once: the amount the moves made, 0 for pricing
 *
 *   kind   in offers, n records in this order
 *   56     for each farm: byte 2 the farm, the amount what it offers per load, any number of four bytes
 *
 * Results of 64 bits. Bits 0 to 7: the refusal number, 0 where the call is accepted. A refused call gives its number alone, all
 * higher bits 0, and leaves the area as it was.
 *
 *   number   what the sheet, or what is given beside it, has to be, in the order of asking
 *     11     a given tariff: 1 to 16 whole records, every one of kind 42 hex with the number of its place, a start that is 0 or the end of
 *            the band before it, and an end above its start
 *     12     a given tariff: no rate is above that of the band before it
 *      1     the length is a multiple of 8, from 16 to 33,024 bytes
 *      2     every kind is 59 or 48 hex, bytes 2 and 3 zero in every yard record
 *      3     1 to 32 yard records stand first, numbered from 0 in order, with none after them
 *      4     the haul records are m times n with n from 1 to 128, each with the yard and farm number of its place
 *     10     byte 3 of every haul record is at most 20, and the same in all of a farm's records
 *     13     by a tariff: no distance is past the end of the last band
 *      5     every fee is at most 50,000,000 and every haul, by a tariff the priced one, at most 1,000,000
 *      6     the four-point rule: haul(a, q) is at most haul(a, p) + haul(b, p) + haul(b, q), for all yards a, b and farms p, q; by a
 *            tariff it is about the priced hauls, which keep it where the distances do
 *     15     offers: n whole records, each of kind 56 hex with the farm number of its place and with bytes 1 and 3 zero
 *     16     offers: at every yard the loads times the excess of amount over haul, by a tariff the priced one, where positive, sum to at
 *            most the fee
 *      7     limited plan: k is from 1 to m
 *      8     pricing, second yards and a yard that shuts: the set marks at least one yard and none numbered m or above
 *     14     a yard that shuts: the set marks it and another one
 *      9     pricing and plans: the area has at least 8 * (m + n + 2) bytes
 */
#ifndef PLANNER_H
#define PLANNER_H

#include <stddef.h>
#include <stdint.h>

#ifdef __cplusplus
extern "C" {
#endif

/* The version of the library and of this header, and its three numbers. */
#define PLANNER_VERSION "0.2.0"
#define PLANNER_VERSION_MAJOR 0
#define PLANNER_VERSION_MINOR 2
#define PLANNER_VERSION_PATCH 0

/* The kinds of records: of a sheet, of a plan, of a tariff and of offers. */
#define PLANNER_KIND_YARD 0x59
#define PLANNER_KIND_HAUL 0x48
#define PLANNER_KIND_OPEN 0x4F
#define PLANNER_KIND_FARM 0x41
#define PLANNER_KIND_TOTAL 0x54
#define PLANNER_KIND_MOVES 0x4D
#define PLANNER_KIND_BAND 0x42
#define PLANNER_KIND_OFFER 0x56

/* What planner_refusal gives: the numbers of the table above, named by what does not hold. */
#define PLANNER_ACCEPTED 0
#define PLANNER_REFUSED_LENGTH 1
#define PLANNER_REFUSED_KIND 2
#define PLANNER_REFUSED_YARDS 3
#define PLANNER_REFUSED_HAULS 4
#define PLANNER_REFUSED_AMOUNT 5
#define PLANNER_REFUSED_FOUR_POINTS 6
#define PLANNER_REFUSED_K 7
#define PLANNER_REFUSED_SET 8
#define PLANNER_REFUSED_AREA 9
#define PLANNER_REFUSED_LOADS 10
#define PLANNER_REFUSED_TARIFF 11
#define PLANNER_REFUSED_RATE 12
#define PLANNER_REFUSED_DISTANCE 13
#define PLANNER_REFUSED_SHUT_YARD 14
#define PLANNER_REFUSED_OFFERS 15
#define PLANNER_REFUSED_EXCESS 16

/* The bytes of a record, and the bounds of questions 3, 4, 5, 10 and 11. */
#define PLANNER_RECORD 8
#define PLANNER_MOST_YARDS 32
#define PLANNER_MOST_FARMS 128
#define PLANNER_HIGHEST_FEE 50000000
#define PLANNER_HIGHEST_HAUL 1000000
#define PLANNER_MOST_LOADS 20
#define PLANNER_MOST_BANDS 16

/* The bytes of the longest sheet, 33,024, of the longest offers and of a tariff of the most bands. */
#define PLANNER_MOST_SHEET (PLANNER_RECORD * PLANNER_MOST_YARDS * (1 + PLANNER_MOST_FARMS))
#define PLANNER_MOST_OFFERS (PLANNER_RECORD * PLANNER_MOST_FARMS)
#define PLANNER_MOST_TARIFF (PLANNER_RECORD * PLANNER_MOST_BANDS)

/* An area of so many bytes holds the plan of every sheet. */
#define PLANNER_MOST_AREA (PLANNER_RECORD * (PLANNER_MOST_YARDS + PLANNER_MOST_FARMS + 2))

/*
 * What `hauls` tells a call by a tariff about the amounts of haul records: 0, hauls as written; 1, distances by the house tariff; any other
 * number, distances by the tariff that is handed over. The bytes of `tariff` are looked at only in the last case; the pointer is not NULL
 * in any.
 */
#define PLANNER_HAULS 0
#define PLANNER_HOUSE_TARIFF 1
#define PLANNER_GIVEN_TARIFF 2

/* Asks questions 1 to 4, 10, 5 and 6. Bits 8 to 15: the yards m; bits 16 to 23: the farms n. */
uint64_t planner_read(const uint8_t *sheet, size_t sheet_len);

/*
 * The stretch of the sheet that holds a farm's m haul records: its length in bytes, where in the sheet it begins, and its byte `at`, which is
 * 0 past its end. It is the bytes sheet[from] to sheet[from + len - 1], and lies within the sheet. The stretch is empty for a farm n or above,
 * and for a sheet that questions 1 to 4 turn down; it then begins at 0. Question 10 is not asked.
 */
size_t planner_farm_len(const uint8_t *sheet, size_t sheet_len, size_t farm);
size_t planner_farm_from(const uint8_t *sheet, size_t sheet_len, size_t farm);
uint8_t planner_farm_byte(const uint8_t *sheet, size_t sheet_len, size_t farm, size_t at);

/*
 * Each writes a plan to the front of the area. Bits 8 to 31: the bytes written; bits 32 to 63: the moves made. What stands in the
 * area behind those bytes stays.
 */

/* The plan of the set of yards whose bit i marks yard i. Asks what planner_read asks, then 8 and 9. */
uint64_t planner_price(const uint8_t *sheet, size_t sheet_len, uint32_t set, uint8_t *area, size_t area_len);

/* The open plan, by fees and hauls. Asks what planner_read asks, then 9. */
uint64_t planner_open_plan(const uint8_t *sheet, size_t sheet_len, uint8_t *area, size_t area_len);

/* The limited plan for k yards, by hauls alone. Asks what planner_read asks, then 7 and 9. */
uint64_t planner_limited_plan(const uint8_t *sheet, size_t sheet_len, size_t k, uint8_t *area, size_t area_len);

/*
 * The same calls by a tariff; with PLANNER_HAULS each gives what the call without a tariff gives. A given tariff is asked 11 and then 12
 * ahead of question 1; by it and by the house tariff 13 is asked between 10 and 5. The calls for a farm's stretch know no tariff and give
 * distances as they stand.
 */
uint64_t planner_read_by(const uint8_t *sheet, size_t sheet_len, uint8_t hauls, const uint8_t *tariff, size_t tariff_len);
uint64_t planner_price_by(const uint8_t *sheet, size_t sheet_len, uint8_t hauls, const uint8_t *tariff, size_t tariff_len, uint32_t set,
                          uint8_t *area, size_t area_len);
uint64_t planner_open_plan_by(const uint8_t *sheet, size_t sheet_len, uint8_t hauls, const uint8_t *tariff, size_t tariff_len, uint8_t *area,
                              size_t area_len);
uint64_t planner_limited_plan_by(const uint8_t *sheet, size_t sheet_len, uint8_t hauls, const uint8_t *tariff, size_t tariff_len, size_t k,
                                 uint8_t *area, size_t area_len);

/*
 * What if this yard shuts? Both are handed a set as in planner_price and lent no area. `hauls` and `tariff` are those of the calls by a
 * tariff; with PLANNER_HAULS hauls are as written. Both ask what planner_read_by asks, then 8.
 */

/*
 * A farm's second cheapest yard of the set, ties as in a plan. Bit 8: whether there is one; bits 16 to 23: that yard; bits 32 to 63: the haul
 * of one load there, by a tariff the priced one. There is none where the set has one yard, and for a farm n or above; the result is then 0.
 */
uint64_t planner_second(const uint8_t *sheet, size_t sheet_len, uint8_t hauls, const uint8_t *tariff, size_t tariff_len, uint32_t set,
                        size_t farm);

/*
 * The change in full cost, fees and hauls, on shutting a yard of the set: that of the set without the yard less that of the set. Asks 14 last,
 * of any number at all. Bit 8: whether the change is below zero, that is shutting saves money; bits 16 to 63: its size.
 */
uint64_t planner_shut(const uint8_t *sheet, size_t sheet_len, uint8_t hauls, const uint8_t *tariff, size_t tariff_len, uint32_t set,
                      size_t yard);

/*
 * A floor under all lists: the sum over farms of loads times the amount offered, which is at most the full cost, fees and hauls, of any
 * non-empty set of yards. `hauls` and `tariff` are those of the calls by a tariff. It is lent no area. Asks what planner_read_by asks, then 15
 * of all records, then 16. Bits 8 to 63: the sum. Where a caller sets every fee of a copy of the sheet to one amount L, the sum of offers
 * accepted on the copy is at most k times L and the hauls of any non-empty set of at most k yards.
 */
uint64_t planner_floor(const uint8_t *sheet, size_t sheet_len, uint8_t hauls, const uint8_t *tariff, size_t tariff_len,
                       const uint8_t *offers, size_t offers_len);

/* The amount of a record. */
static inline uint32_t planner_amount(const uint8_t *record)
{
    return (uint32_t)record[4] | (uint32_t)record[5] << 8 | (uint32_t)record[6] << 16 | (uint32_t)record[7] << 24;
}

/* Writes a record of a sheet, or of offers; for what its kind does not have, 0 is handed over. */
static inline void planner_put_record(uint8_t *record, uint8_t kind, uint8_t yard, uint8_t farm, uint8_t loads,
                                      uint32_t amount)
{
    record[0] = kind;
    record[1] = yard;
    record[2] = farm;
    record[3] = loads;
    record[4] = (uint8_t)(amount & 0xFF);
    record[5] = (uint8_t)(amount >> 8 & 0xFF);
    record[6] = (uint8_t)(amount >> 16 & 0xFF);
    record[7] = (uint8_t)(amount >> 24);
}

/* The parts of a result. */
static inline unsigned planner_refusal(uint64_t result) { return (unsigned)(result & 0xFF); }
static inline size_t planner_yards(uint64_t result) { return (size_t)(result >> 8 & 0xFF); }
static inline size_t planner_farms(uint64_t result) { return (size_t)(result >> 16 & 0xFF); }
static inline size_t planner_bytes(uint64_t result) { return (size_t)(result >> 8 & 0xFFFFFF); }
static inline uint32_t planner_moves(uint64_t result) { return (uint32_t)(result >> 32); }
static inline int planner_found(uint64_t result) { return (int)(result >> 8 & 1); }
static inline size_t planner_second_yard(uint64_t result) { return (size_t)(result >> 16 & 0xFF); }
static inline uint32_t planner_second_haul(uint64_t result) { return (uint32_t)(result >> 32); }
static inline int64_t planner_change(uint64_t result)
{
    int64_t size = (int64_t)(result >> 16);
    return (result >> 8 & 1) != 0 ? -size : size;
}
static inline uint64_t planner_sum(uint64_t result) { return result >> 8; }

#ifdef __cplusplus
}
#endif

#endif
