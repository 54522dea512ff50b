/* The second program's door: one MSSP as an I2C slave of seven or ten address bits with its handler, as a 48-byte image. */
#ifndef SECOND_H
#define SECOND_H

#include <stddef.h>
#include <stdint.h>

#ifdef __cplusplus
extern "C" {
#endif

/* An answer: refusal 0 means done; value is the byte a read gave, or which address was hit (0 none, 1 own, 2 general call);
   item is the first bad item for refusal 4 in a run. */
typedef struct {
    uint32_t refusal;
    uint32_t value;
    uint64_t item;
} second_answer;

/* A part of the caller's own record: length items from start on. */
typedef struct {
    uint32_t refusal;
    uint64_t item;
    uint64_t start;
    uint64_t length;
} second_part;

/* How far a drawing went: samples items of the record were taken and items words written, both 0 after a refusal; item is the
   first bad level for refusal 4. */
typedef struct {
    uint32_t refusal;
    uint64_t item;
    uint64_t samples;
    uint64_t items;
} second_taken;

/* What the scope draws of a state; on a refusal all other fields are 0. */
typedef struct {
    uint32_t refusal;
    uint8_t buf, stat, con1, con2, con3, add, msk, flag;
    uint8_t scl_pulled, sda_pulled;
    uint8_t phase;
    uint8_t bits;
    uint8_t byte;
    uint8_t refused;
    uint8_t wire;
    uint8_t mark, due;
    uint16_t n, pointer;
    uint8_t which; /* address, held before acknowledge, slot: 0 other, 1 high byte, 2 low byte, 3 high byte that asks to send */
    uint8_t next;  /* held for ADD: 0 quiet, 1 the low byte, 2 data follows */
    uint8_t full;  /* 1: both bytes of the ten-bit address were acknowledged */
} second_view;

second_answer second_setup(uint8_t *state, size_t state_length, uint8_t add, uint64_t n);
second_answer second_read(uint8_t *state, size_t state_length, uint32_t number);
second_answer second_write(uint8_t *state, size_t state_length, uint32_t number, uint8_t value);
second_answer second_sample(uint8_t *state, size_t state_length, uint32_t level);
second_answer second_call(uint8_t *state, size_t state_length,
                          uint8_t *buffer, size_t buffer_length, uint64_t start, uint64_t n);
second_answer second_run(uint8_t *state, size_t state_length,
                         uint8_t *buffer, size_t buffer_length, uint64_t start, uint64_t n,
                         const uint8_t *trace, size_t trace_length);
second_taken second_draw(uint8_t *state, size_t state_length,
                         uint8_t *buffer, size_t buffer_length, uint64_t start, uint64_t n,
                         const uint8_t *record, size_t record_length, uint64_t *lanes, size_t lanes_length);
second_view second_look(const uint8_t *state, size_t state_length);
second_answer second_hit(const uint8_t *state, size_t state_length, uint8_t byte);
second_part second_find(const uint8_t *record, size_t record_length, uint64_t item);

#ifdef __cplusplus
}
#endif

#endif
