/* Kind 11: a side, a floor, and a cell's points with the expansions of carbon monoxide, nitrogen and oxygen: Graham's ratio at each
   point. The scaled points come first. What is lent for the answers and the ratios is filled with numbers that no call writes, so that a
   place that stays as it was is seen. */
#include "replay.h"

enum { ROOM = 65536, MOST = 4096, LENT_ANSWER = 99, LENT_RATIO = 7 };

static double points[3 * MOST];
static double carbon_monoxide[MOST];
static double nitrogen[MOST];
static double oxygen[MOST];
static double values[ROOM];
static double factors[ROOM];
static uint8_t answers[MOST];
static double ratios[MOST];

static void put_answers(size_t count)
{
    for (size_t i = 0; i < count; i++) {
        printf(" %u", answers[i]);
    }
}

void replay_ratios(Case c)
{
    double side_and_floor[2];
    double centre[3];
    double polynomials[256];
    size_t axes = up_to(3, c.dimension);
    size_t rows = up_to(MOST, c.rows);
    size_t nodes = block(c.dimension, c.order);
    size_t each = up_to(ROOM, nodes * rows);
    size_t of_axes = up_to(ROOM, axes * up_to(16, c.order) * rows);
    read_floats(side_and_floor, 2);
    read_floats(centre, axes);
    read_floats(polynomials, square(c.order));
    read_floats(points, axes * rows);
    read_floats(carbon_monoxide, nodes);
    read_floats(nitrogen, nodes);
    read_floats(oxygen, nodes);
    for (size_t i = 0; i < rows; i++) {
        answers[i] = LENT_ANSWER;
        ratios[i] = LENT_RATIO;
    }
    uint8_t refusal = bbfmm_graham_ratios(
        c.dimension, c.order, side_and_floor[0], c.rows, side_and_floor[1], centre, axes, polynomials, square(c.order), points,
        axes * rows, carbon_monoxide, nodes, nitrogen, nodes, oxygen, nodes, values, each, factors, of_axes, answers, rows, ratios, rows);
    printf("ratios %zu %zu %zu:", c.dimension, c.order, c.rows);
    put_answer(refusal, points, axes * rows);
    printf(" |");
    put_answer(refusal, values, each);
    printf(" |");
    put_answers(rows);
    printf(" |");
    put_floats(ratios, rows);
    printf("\n");
}
