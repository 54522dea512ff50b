#!/bin/sh
# An input of exactly 60,000 bytes whose last is no item.
head -c 59999 /dev/zero | tr '\0' 3
printf x
