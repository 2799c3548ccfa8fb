/* A call, and all that it leaves: every entry of every buffer, and a few past each. After a refusal nothing has changed, by bits; else
   what is written is compared by bits too, any NaN being any NaN, and what is only read is as it came. */
#include "hold.h"
#include "../distances/draw.h"

int printf(const char *format, ...);

/* All buffers of a call stand in one stretch, with so many entries between them. */
enum { PAST = 8, STRETCH = 1 << 21, PRINTED = 10 };

/* What stands in a buffer before a call: a float so large that it shows in any sum. */
static const uint64_t PATTERN = 0xc5a5a5a5a5a5a5a5;

/* A buffer: its place in the stretch, how long it is, and how many entries are told. */
typedef struct {
    const char *name;
    size_t start, length, told;
    bool is_written;
} Buffer;

Drawn drawn;
Tally tally;
static double ours[STRETCH], own[STRETCH];

static void fault(const Trial *trial, const char *call, const char *what, size_t number)
{
    if (tally.faults++ < PRINTED) {
        printf("%s, call %zu, dimension %zu, order %zu, %zu points, length %a: %s: %zu\n", call, tally.calls + tally.second_calls,
            trial->dimension, trial->order, trial->rows, trial->length, what, number);
    }
}

/* BUFFERS */

/* Gives each buffer its place; one of them may be told as an entry longer or shorter. Answers where the last one and its rest end. */
static size_t lay_out(const Trial *trial, Buffer *buffers, size_t count)
{
    size_t end = PAST;
    for (size_t k = 0; k < count; k++) {
        Buffer *buffer = &buffers[k];
        bool is_wrong = k == trial->wrong_buffer;
        buffer->start = end;
        buffer->told = buffer->length + (!is_wrong ? 0 : trial->is_longer || buffer->length == 0 ? 1 : (size_t)-1);
        end += buffer->length + PAST;
    }
    return end;
}

static void fill_with_pattern(double *stretch, size_t end)
{
    for (size_t i = 0; i < end; i++) {
        stretch[i] = float_of(PATTERN);
    }
}

static void put(double *stretch, const Buffer *buffer, const double *from)
{
    for (size_t i = 0; i < buffer->length; i++) {
        stretch[buffer->start + i] = from[i];
    }
}

/* COMPARING */

static const Buffer *buffer_at(const Buffer *buffers, size_t count, size_t place)
{
    size_t k = 0;
    while (k + 1 < count && buffers[k + 1].start <= place) {
        k++;
    }
    return &buffers[k];
}

/* Nothing of the stretch is left out. */
static void hold_stretch(const Trial *trial, const char *call, const Buffer *buffers, size_t count, size_t end, bool is_done)
{
    for (size_t i = 0; i < end; i++) {
        const Buffer *buffer = buffer_at(buffers, count, i);
        bool is_inside = buffer->start <= i && i < buffer->start + buffer->length;
        bool is_any = is_done && is_inside && buffer->is_written;
        if (bits_of(ours[i]) != bits_of(own[i]) && !(is_any && is_same(ours[i], own[i]))) {
            fault(trial, call, buffer->name, i - buffer->start);
            return;
        }
        tally.entries += is_any;
        tally.not_finite += is_any && own[i] - own[i] != 0;
    }
}

/* SECOND DERIVATIVES */

void try_second(const Trial *trial)
{
    size_t each = trial->order * trial->rows;
    Buffer b[BUFFERS_OF_SECOND] = {{"points", 0, trial->rows, 0, false}, {"tn", 0, each, 0, true}, {"dtn", 0, each, 0, true},
        {"ddtn", 0, each, 0, true}};
    size_t end = lay_out(trial, b, BUFFERS_OF_SECOND);
    fill_with_pattern(ours, end);
    fill_with_pattern(own, end);
    put(ours, &b[PLACES], drawn.coordinates);
    put(own, &b[PLACES], drawn.coordinates);
    uint8_t expected = find_fault_of_second(trial->told_order, trial->told_rows, trial->wrong_buffer >= BUFFERS_OF_SECOND);
    for (size_t i = 0; i < trial->rows && expected == BBFMM_DONE; i++) {
        Polynomials all = polynomials_at(drawn.coordinates[i], trial->order);
        for (size_t j = 0; j < trial->order; j++) {
            own[b[TN].start + i + j * trial->rows] = all.t[j];
            own[b[DTN].start + i + j * trial->rows] = all.first[j];
            own[b[DDTN].start + i + j * trial->rows] = all.second[j];
        }
    }
    uint8_t number = bbfmm_evaluate_second_derivatives(trial->told_order, trial->told_rows, ours + b[PLACES].start, b[PLACES].told,
        ours + b[TN].start, b[TN].told, ours + b[DTN].start, b[DTN].told, ours + b[DDTN].start, b[DDTN].told);
    if (number != expected) {
        fault(trial, "second derivatives", "another number", number);
    }
    hold_stretch(trial, "second derivatives", b, BUFFERS_OF_SECOND, end, expected == BBFMM_DONE);
    tally.second_numbers[expected]++;
    tally.orders[trial->order] = tally.orders[trial->order] || expected == BBFMM_DONE;
    tally.second_calls++;
}

/* CURVATURE */

static uint8_t ask(const Trial *t, const Buffer *b)
{
    return bbfmm_get_curvature_coefficients(t->told_dimension, t->told_order, t->told_rows, t->length,
        ours + b[NODE_POLYNOMIALS].start, b[NODE_POLYNOMIALS].told, ours + b[COORDINATES].start, b[COORDINATES].told,
        ours + b[CURVATURES].start, b[CURVATURES].told, ours + b[FACTORS].start, b[FACTORS].told, ours + b[SLOPES].start,
        b[SLOPES].told, ours + b[BENDS].start, b[BENDS].told, ours + b[ROOM].start, b[ROOM].told);
}

/* Answers the number that must come, and leaves what must stand in the buffers. */
static uint8_t follow_rule(const Trial *t, const Buffer *b)
{
    Question q = {t->told_dimension, t->told_order, t->told_rows, t->length, own + b[NODE_POLYNOMIALS].start,
        own + b[COORDINATES].start};
    Left left = {own + b[CURVATURES].start, own + b[FACTORS].start, own + b[SLOPES].start, own + b[BENDS].start,
        own + b[ROOM].start};
    uint8_t number = find_fault(&q, t->wrong_buffer == BUFFERS);
    if (number == BBFMM_DONE) {
        fill_left(&q, &left);
        tally.shapes[t->dimension][t->order] = true;
        for (size_t i = 0; i < t->dimension * t->rows; i++) {
            tally.outside += q.coordinates[i] > 1 || q.coordinates[i] < -1;
        }
    }
    return number;
}

void try_curvature(const Trial *trial)
{
    size_t all = pairs_of(trial->dimension) * nodes_of(trial->dimension, trial->order) * trial->rows;
    size_t axes = trial->dimension * trial->order * trial->rows;
    Buffer b[BUFFERS] = {{"node polynomials", 0, trial->order * trial->order, 0, false},
        {"coordinates", 0, trial->dimension * trial->rows, 0, false}, {"curvatures", 0, all, 0, true}, {"factors", 0, axes, 0, true},
        {"slopes", 0, axes, 0, true}, {"bends", 0, axes, 0, true}, {"room", 0, 3 * trial->order * trial->rows, 0, true}};
    size_t end = lay_out(trial, b, BUFFERS);
    if (end > STRETCH) {
        fault(trial, "curvature", "the test has no room for so much", end);
        return;
    }
    fill_with_pattern(ours, end);
    fill_with_pattern(own, end);
    put(ours, &b[NODE_POLYNOMIALS], drawn.polynomials);
    put(own, &b[NODE_POLYNOMIALS], drawn.polynomials);
    put(ours, &b[COORDINATES], drawn.coordinates);
    put(own, &b[COORDINATES], drawn.coordinates);
    uint8_t expected = follow_rule(trial, b);
    uint8_t number = ask(trial, b);
    if (number != expected) {
        fault(trial, "curvature", "another number", number);
    }
    hold_stretch(trial, "curvature", b, BUFFERS, end, expected == BBFMM_DONE);
    tally.numbers[expected]++;
    tally.calls++;
}
