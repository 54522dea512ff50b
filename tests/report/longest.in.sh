#!/bin/sh
# An input of exactly 60,000 bytes, the most that are read: an idle bus.
head -c 60000 /dev/zero | tr '\0' 3
