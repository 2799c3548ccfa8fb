/* Kind 8: the place of the largest of some entries; the mask's bytes follow the entries. Kind 9: where some singular values are cut
   off; the tolerance comes before them. */
#include "replay.h"

static double entries[1024];
static uint8_t mask[1024];

void replay_choices(Case c)
{
    size_t place[1];
    size_t count = up_to(1024, c.rows);
    uint8_t refusal;
    if (c.kind == 8) {
        read_floats(entries, count);
        read_bytes(mask, count);
        refusal = bbfmm_argmax_masked(entries, count, mask, count, place, 1);
        printf("argmax %zu:", count);
    } else {
        double epsilon;
        read_floats(&epsilon, 1);
        read_floats(entries, count);
        refusal = bbfmm_calculate_singular_values_cutoff(entries, count, epsilon, place, 1);
        printf("cutoff %zu:", count);
    }
    if (refusal == 0) {
        printf(" %zu\n", place[0]);
    } else {
        printf(" refused %u\n", refusal);
    }
}
