/* Counts checks, and tells the first that fail with a number beside them. */
#ifndef EXPECT_H
#define EXPECT_H

#include <stdio.h>

static unsigned long checks, failures;

static void expect(int fine, const char *what, unsigned long more)
{
    checks++;
    if (fine)
        return;
    if (failures++ < 20)
        printf("failed: %s (%lu)\n", what, more);
}

#endif
