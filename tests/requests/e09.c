/* E9: nothing outside the rows and columns listed. Two blocks that agree there have the one answer that the case lists. */
#include "cases.h"

void answer_e09_outside(void)
{
    hold_reals("smallest", answer_block("block") + 1, 1);
    hold_reals("smallest", answer_block("other") + 1, 1);
}
