/* A call, and all that it leaves: every entry of every buffer and a few past it. After a refusal nothing has changed, by bits; else
   floats are compared by bits too, any NaN being any NaN. */
#include "hold.h"
#include "../distances/draw.h"
#include "rule.h"

int printf(const char *format, ...);

enum { PRINTED = 10 };

/* What stands in a buffer before a call: a float so large that it shows in any sum, and no answer. */
static const uint64_t PATTERN = 0xc5a5a5a5a5a5a5a5;
static const uint8_t NO_ANSWER = 0xa5;

typedef struct {
    double centre[AXES + PAST], polynomials[ORDERS * ORDERS + PAST], points[AXES * POINTS + PAST], gases[3][NODES + PAST];
    double values[POINTS * NODES + PAST], factors[POINTS * AXES * ORDERS + PAST], ratios[POINTS + PAST];
    uint8_t answers[POINTS + PAST];
} Room;

Drawn drawn;
Tally tally;
static Room ours, own;

/* Prints what is wrong, with a number: a place of a buffer, or what was told. */
static void fault(const Map *map, const Question *q, const char *what, size_t number)
{
    if (tally.faults++ < PRINTED) {
        printf("call %zu, dimension %zu, order %zu, %zu points, length %a, floor %a: %s: %zu\n", tally.calls, map->dimension,
            map->order, map->rows, q->length, q->floor, what, number);
    }
}

/* BUFFERS */

static void find_lengths(const Map *map, size_t *lengths)
{
    size_t nodes = map->order * (map->dimension > 1 ? map->order : 1) * (map->dimension > 2 ? map->order : 1);
    lengths[CENTRE] = map->dimension;
    lengths[POLYNOMIALS] = map->order * map->order;
    lengths[PLACES] = map->rows * map->dimension;
    lengths[CARBON_MONOXIDE] = lengths[NITROGEN] = lengths[OXYGEN] = nodes;
    lengths[VALUES] = map->rows * nodes;
    lengths[FACTORS] = map->rows * map->dimension * map->order;
    lengths[ANSWERS] = lengths[RATIOS] = map->rows;
}

/* So many entries are copied, if there is something to copy, and the pattern stands in all others. */
static void fill(double *buffer, const double *from, size_t length)
{
    for (size_t i = 0; i < length + PAST; i++) {
        buffer[i] = from != 0 && i < length ? from[i] : float_of(PATTERN);
    }
}

static void fill_room(Room *room, const size_t *lengths)
{
    fill(room->centre, drawn.centre, lengths[CENTRE]);
    fill(room->polynomials, drawn.polynomials, lengths[POLYNOMIALS]);
    fill(room->points, drawn.points, lengths[PLACES]);
    for (size_t gas = 0; gas < 3; gas++) {
        fill(room->gases[gas], drawn.gases[gas], lengths[CARBON_MONOXIDE]);
    }
    fill(room->values, 0, lengths[VALUES]);
    fill(room->factors, 0, lengths[FACTORS]);
    fill(room->ratios, 0, lengths[RATIOS]);
    for (size_t i = 0; i < lengths[ANSWERS] + PAST; i++) {
        room->answers[i] = NO_ANSWER;
    }
}

/* COMPARING */

/* The first place at which two buffers differ, or a place past all. */
static size_t differ_at(const double *found, const double *expected, size_t length, bool by_bits)
{
    size_t i = 0;
    while (i < length + PAST && (bits_of(found[i]) == bits_of(expected[i]) || (!by_bits && is_same(found[i], expected[i])))) {
        i++;
    }
    return i;
}

static void hold_rooms(const Map *map, const Question *q, const size_t *lengths, bool is_refused)
{
    const struct {
        const char *what;
        const double *found, *expected;
        size_t length;
        bool is_written;
    } all[] = {
        {"the centre is changed", ours.centre, own.centre, lengths[CENTRE], false},
        {"a polynomial is changed", ours.polynomials, own.polynomials, lengths[POLYNOMIALS], false},
        {"carbon monoxide is changed", ours.gases[0], own.gases[0], lengths[CARBON_MONOXIDE], false},
        {"nitrogen is changed", ours.gases[1], own.gases[1], lengths[NITROGEN], false},
        {"oxygen is changed", ours.gases[2], own.gases[2], lengths[OXYGEN], false},
        {"a point differs", ours.points, own.points, lengths[PLACES], true},
        {"a value differs", ours.values, own.values, lengths[VALUES], true},
        {"a factor differs", ours.factors, own.factors, lengths[FACTORS], true},
        {"a ratio differs", ours.ratios, own.ratios, lengths[RATIOS], true},
    };
    for (size_t k = 0; k < sizeof all / sizeof all[0]; k++) {
        size_t place = differ_at(all[k].found, all[k].expected, all[k].length, is_refused || !all[k].is_written);
        if (place < all[k].length + PAST) {
            fault(map, q, all[k].what, place);
        }
    }
    for (size_t i = 0; i < lengths[ANSWERS] + PAST; i++) {
        if (ours.answers[i] != own.answers[i]) {
            fault(map, q, "an answer differs", i);
            return;
        }
    }
}

/* WHAT THE RULE GIVES, in our own room */

static void count_point(const Question *q, Found found)
{
    bool is_met = is_finite(found.deficiency);
    tally.points++;
    tally.answers[found.answer]++;
    tally.overflows += found.answer == BBFMM_AIR_UNUSABLE && is_met;
    tally.negative += found.answer == BBFMM_AIR_FRESH && found.deficiency < 0;
    for (size_t k = 0; k < 3; k++) {
        tally.about_floor[k] += is_met && bits_of(found.deficiency) == bits_of(q->floor) + k - 1;
    }
}

static void fill_map(const Question *q, const Coefficients *c)
{
    for (size_t i = 0; i < q->rows; i++) {
        Found found = find_ratio(q, c, i);
        own.answers[i] = found.answer;
        if (found.answer == BBFMM_AIR_RATIO) {
            own.ratios[i] = found.ratio;
        }
        count_point(q, found);
    }
}

/* The floor that was asked for. Where there is no point, or its deficiency can be no floor, the floor is the given one. */
static double choose_floor(const Map *map, const Question *q, const Coefficients *c)
{
    if (map->floor_kind == GIVEN || map->rows == 0) {
        return map->floor;
    }
    double deficiency = find_ratio(q, c, map->floor_point % map->rows).deficiency;
    uint64_t bits = bits_of(deficiency) + (map->floor_kind == ABOVE ? 1 : map->floor_kind == BELOW ? (uint64_t)-1 : 0);
    bool is_floor = deficiency > 0 && is_finite(deficiency) && float_of(bits) > 0 && is_finite(float_of(bits));
    return is_floor ? float_of(bits) : map->floor;
}

/* Answers the number that must come, and leaves what must stand in the buffers. */
static uint8_t follow_rule(const Map *map, Question *q)
{
    Coefficients c = {own.points, own.values, own.factors};
    bool are_right = map->wrong_buffer == BUFFERS;
    uint8_t number = find_fault(q, own.points, are_right);
    if (number != BBFMM_DONE) {
        return number;
    }
    fill_coefficients(q, &c);
    q->floor = choose_floor(map, q, &c);
    fill_map(q, &c);
    tally.shapes[q->dimension][q->order] = true;
    return BBFMM_DONE;
}

/* THE CALL */

static uint8_t ask(const Question *q, const size_t *n)
{
    return bbfmm_graham_ratios(
        q->dimension, q->order, q->length, q->rows, q->floor, ours.centre, n[CENTRE], ours.polynomials, n[POLYNOMIALS], ours.points,
        n[PLACES], ours.gases[0], n[CARBON_MONOXIDE], ours.gases[1], n[NITROGEN], ours.gases[2], n[OXYGEN], ours.values, n[VALUES],
        ours.factors, n[FACTORS], ours.answers, n[ANSWERS], ours.ratios, n[RATIOS]);
}

void try_map(const Map *map)
{
    size_t lengths[BUFFERS], told[BUFFERS];
    Question q = {map->told_dimension, map->told_order, map->length, map->told_rows, map->floor, own.centre, own.polynomials,
        own.gases[0], own.gases[1], own.gases[2]};
    find_lengths(map, lengths);
    fill_room(&ours, lengths);
    fill_room(&own, lengths);
    uint8_t expected = follow_rule(map, &q);
    for (size_t k = 0; k < BUFFERS; k++) {
        told[k] = lengths[k] + (k != map->wrong_buffer ? 0 : map->is_longer || lengths[k] == 0 ? 1 : (size_t)-1);
    }
    uint8_t number = ask(&q, told);
    if (number != expected) {
        fault(map, &q, "another number", number);
    }
    hold_rooms(map, &q, lengths, expected != BBFMM_DONE);
    tally.numbers[expected]++;
    tally.calls++;
}
