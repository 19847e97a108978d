// The run call of coffee.h in plain C, to hold the proved library's speed against.
#ifndef BASELINE_H
#define BASELINE_H

#include "coffee.h"

// As coffee_run.
struct coffee_answer baseline_run(
    const uint8_t *program, size_t program_len,
    uint32_t *cells, size_t cells_len,
    const uint8_t *image, size_t image_len,
    const uint32_t *requests, size_t requests_len,
    uint32_t limit,
    uint8_t *buffer, size_t buffer_len);

#endif
