/* The door a test goes through: a table of ten functions whose prefix is chosen when the test is compiled. */
#ifndef DOOR_H
#define DOOR_H

/* For another program: -DDOOR_PREFIX=other_ -DDOOR_HEADER='"other.h"'. */
#ifndef DOOR_PREFIX
#define DOOR_PREFIX second_
#endif
#ifndef DOOR_HEADER
#define DOOR_HEADER "second.h"
#endif

#include DOOR_HEADER

#include <stddef.h>
#include <stdint.h>

#define DOOR_PASTE(prefix, name) prefix##name
#define DOOR_NAME(prefix, name) DOOR_PASTE(prefix, name)
#define DOOR(name) DOOR_NAME(DOOR_PREFIX, name)

typedef DOOR(answer) door_answer;
typedef DOOR(part) door_part;
typedef DOOR(taken) door_taken;
typedef DOOR(view) door_view;

/* The ten functions. */
typedef struct {
    door_answer (*setup)(uint8_t *state, size_t state_length, uint8_t add, uint64_t n);
    door_answer (*read)(uint8_t *state, size_t state_length, uint32_t number);
    door_answer (*write)(uint8_t *state, size_t state_length, uint32_t number, uint8_t value);
    door_answer (*sample)(uint8_t *state, size_t state_length, uint32_t level);
    door_answer (*call)(uint8_t *state, size_t state_length,
                        uint8_t *buffer, size_t buffer_length, uint64_t start, uint64_t n);
    door_answer (*run)(uint8_t *state, size_t state_length,
                       uint8_t *buffer, size_t buffer_length, uint64_t start, uint64_t n,
                       const uint8_t *trace, size_t trace_length);
    door_taken (*draw)(uint8_t *state, size_t state_length,
                       uint8_t *buffer, size_t buffer_length, uint64_t start, uint64_t n,
                       const uint8_t *record, size_t record_length, uint64_t *lanes, size_t lanes_length);
    door_view (*look)(const uint8_t *state, size_t state_length);
    door_answer (*hit)(const uint8_t *state, size_t state_length, uint8_t byte);
    door_part (*find)(const uint8_t *record, size_t record_length, uint64_t item);
} door_table;

static const door_table door = {
    DOOR(setup), DOOR(read), DOOR(write), DOOR(sample), DOOR(call), DOOR(run), DOOR(draw), DOOR(look), DOOR(hit), DOOR(find)
};

/* The length of a state image. */
enum { DOOR_IMAGE = 48 };

/* The phases by their numbers. */
enum {
    DOOR_QUIET, DOOR_ADDRESS, DOOR_DATA, DOOR_HELD_BEFORE,
    DOOR_SLOT, DOOR_HELD_SENDING, DOOR_SENDING, DOOR_MASTER_ACK, DOOR_HELD_ADD, DOOR_PHASES
};

#endif
