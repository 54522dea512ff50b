#!/bin/sh
# One byte more than is read; the first is no item, which comes second.
printf x
head -c 60000 /dev/zero | tr '\0' 3
