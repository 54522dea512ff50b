#!/bin/sh
# An input of exactly 60,000 bytes with g first, whose last is no item: g is none of the items before it.
printf g
head -c 59998 /dev/zero | tr '\0' 3
printf x
