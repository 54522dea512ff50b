/* A fuzz target: what the fuzzer calls, and what a run over stored inputs asks it at the end. */
#ifndef TARGET_H
#define TARGET_H

#include <stddef.h>
#include <stdint.h>

/* One input; a broken promise ends the run. */
int LLVMFuzzerTestOneInput(const uint8_t *data, size_t size);

/* Tells what the inputs so far have come to, as the rest of a line; answers whether that is all that they have to. */
int target_reached(void);

#endif
