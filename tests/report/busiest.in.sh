#!/bin/sh
# 60,000 items that make as many events as they can, 30,000: a Stop and a Start in every four.
awk 'BEGIN { for (i = 0; i < 15000; i++) printf "2320" }'
