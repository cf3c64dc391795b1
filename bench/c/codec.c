#include "codec.h"

static size_t put_number(uint8_t *out, uint32_t n) {
    size_t length = 0;
    for (; n >= 128; n /= 128) out[length++] = (uint8_t)(n % 128 + 128);
    out[length++] = (uint8_t)n;
    return length;
}

size_t numbers_of(uint32_t step, uint32_t instruction) {
    if (step == MWB_SERVE || step == MWB_SEND_BACK) return 1;
    if (step != MWB_ISSUE) return 2;
    return instruction == MWB_STOREL || instruction >= MWB_FENCE_RR ? 6 : 5;
}

size_t put_step(uint8_t *out, numbers x) {
    size_t length = 0;
    for (size_t i = 0; i < numbers_of(x.of[0], x.of[2]); i++) length += put_number(out + length, x.of[i]);
    return length;
}

bool is_wrote(mwb_wrote w, uint32_t number, size_t place, size_t next) {
    return w.number == number && w.place == place && w.next == next;
}
