/* Goes through the step lists of the source documents by the door, and checks bits and phase at every numbered step. */
#include "sequences.h"

/* Every row. */
int main(void)
{
    go_through(rows, sizeof rows / sizeof rows[0]);
    printf("sequences %lu steps %lu failures %lu\n", sequences, steps, failures);
    return steps > 0 && failures == 0 ? 0 : 1;
}
