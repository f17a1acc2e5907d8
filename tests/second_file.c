/* Another file of tests/header.c's program, which includes the header too, and twice. */
#include "razgwilh.h"
#include "razgwilh.h"

int accepted_elsewhere(const uint8_t *bytes, size_t length);

int accepted_elsewhere(const uint8_t *bytes, size_t length) {
    return rz_accepted(rz_judge_transcript_answer(bytes, length));
}
