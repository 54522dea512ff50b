#!/bin/sh
# An input of exactly 60,000 bytes, g among them: 59,999 items.
printf g
head -c 59999 /dev/zero | tr '\0' 3
