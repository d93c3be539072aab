/* Links libpart.a and nothing else: the paper's example, all of whose covers fit. */
#include "covers.h"

#include <stdio.h>
#include <stdlib.h>

static const uint8_t job[] = {
    0x49, 2, 2, 0x52, 0, 0, 1, 0x52, 1, 1, 2, 0x52, 2, 3, 0, 0x52, 3, 2, 0,
    0x54, 1, 0, 1, 0x54, 3, 1, 3, 0x54, 1, 1, 2, 0x54, 2, 2, 2, 0x54, 3, 2, 3, 0x54, 2, 0, 1,
    0x4C, 0, 0, 0, 0, 0, 0, 0, 0, 6, 0x43, 0x45,
};

static const uint64_t sets[] = {11, 22, 26, 41, 52, 56};

int main(void)
{
    uint8_t answers[63];
    uint64_t outcome = part_job(job, sizeof job, answers, sizeof answers);
    int right = outcome == (UINT64_C(55) << 16 | 63) && answers[0] == COVER_LIST_ANSWER && answers[1] == 6;
    for (size_t i = 0; right && i < 6; i++)
        right = cover_page_set(answers, i) == sets[i];
    printf("libpart.a alone: %s\n", right ? "as expected" : "wrong");
    return right ? EXIT_SUCCESS : EXIT_FAILURE;
}
