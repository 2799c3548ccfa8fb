/* E8: the smallest pivot in the report of a cross approximation, beside all that the cases of E4 list. E10: the same of blocks whose
   pivots stand at the ends of the words that hold the flags. */
#include "cases.h"

void answer_e08_smallest(void)
{
    const double *numbers = answer_cross();
    if (numbers != 0) {
        hold_reals("smallest", numbers + 1, 1);
    }
}

void answer_e10_words(void)
{
    answer_e08_smallest();
}
