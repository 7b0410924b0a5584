#include <landovireph.h>

#include <inttypes.h>
#include <stdio.h>

#define N 156

int main(void)
{
    static uint8_t state[LANDOVIREPH_STATE_BYTES], answer[LANDOVIREPH_ANSWER_BYTES], words[8 * N], flags[N];
    uint64_t refused = landovireph_funnel_open(N, 3, 2024, 8, state, sizeof state, words, sizeof words, flags, sizeof flags,
                                               answer, sizeof answer);
    if (refused == LANDOVIREPH_OK)
        refused = landovireph_funnel_insert(state, sizeof state, words, sizeof words, flags, sizeof flags, 7, answer, sizeof answer);
    printf("%s: slot %" PRIu64 ", count %" PRIu64 "\n", landovireph_refusal_name(refused), landovireph_answer_slot(answer),
           landovireph_state_count(state));
    return refused != LANDOVIREPH_OK;
}
