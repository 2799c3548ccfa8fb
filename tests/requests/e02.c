/* E2: where one node goes, and which node comes to its place. */
#include "cases.h"

static size_t refusals[MOST], images[MOST], origins[MOST];

void answer_e02_node(void)
{
    size_t count = count_of("node");
    size_t taken = 0;
    for (size_t i = 0; i < count; i++) {
        size_t answer[2] = {77, 77};
        refusals[i] = bbfmm_follow_node(
            number("d"), number("p"), (int32_t)number_at("vector", 0), (int32_t)number_at("vector", 1),
            (int32_t)number_at("vector", 2), number_at("node", i), answer, 2);
        if (refusals[i] == 0) {
            images[taken] = answer[0];
            origins[taken++] = answer[1];
        } else {
            hold(answer[0] == 77 && answer[1] == 77, "answer");
        }
    }
    hold_numbers("refusals", refusals, count);
    hold_numbers("images", images, taken);
    hold_numbers("origins", origins, taken);
}
