#!/bin/sh
# One byte more than is read: 60,000 items, and g before them.
printf g
head -c 60000 /dev/zero | tr '\0' 3
