/* Drops the answer of every function that gives one, and the length of a sheet: no compiler that
 * knows -Werror=unused-result takes it, and it is never run. */
#include "razgwilh.h"

int main(void) {
    const struct rz_list list = {NULL, 0};
    const struct rz_output output = {NULL, 0};

    rz_inverse_answer(2);
    rz_encode_answer(0, list, list, output);
    rz_interpolate_answer(0, list, list, output);
    rz_fold_answer(NULL, output, output);
    rz_prove_answer(NULL, output, output);
    rz_layer_answer(3, 1, 1, list, 1);
    rz_judge_answer(NULL, list, list, list);
    rz_write_transcript_answer(NULL, list, list, list, NULL, 0);
    rz_judge_transcript_answer(NULL, 0);
    rz_sheet_into(NULL, 0, NULL, 0);
    return 0;
}
