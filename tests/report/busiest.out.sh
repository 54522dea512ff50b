#!/bin/sh
# A Stop at every fourth item from 1 on, a Start right after it.
awk 'BEGIN {
    print "item event byte ack pointer"
    for (i = 0; i < 15000; i++) {
        print 4 * i + 1 " P -- - 0"
        print 4 * i + 2 " S -- - 0"
    }
    print "end 60000"
}'
