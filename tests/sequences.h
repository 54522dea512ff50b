/* The step lists of Microchip's brief "Using the MSSP in I2C Slave Mode" and of AN734 as a table: what is done at each
   numbered step, and which bits and which phase are seen after it, in the words of step_lists.h. A step number with a letter is
   a part of that step.

   Where a list says less or other than our rules (paper 01 and its requests), the rules decide; "rules:" in a comment tells
   it. */
#ifndef SEQUENCES_H
#define SEQUENCES_H

#include "step_lists.h"

static const row rows[] = {
    SEQUENCE("brief 2.2.6.1, reception, SEN 0 (figure 2-6)", "-SEN"),
    STEP("1", "S", "S CKP", "address"),
    STEP("2", "", "S CKP", "address"),                                     /* SCIE 0: no SSPIF */
    STEP("3", "b30", "S BF CKP", "slot, pulling"),
    STEP("4", "up dn", "S BF CKP SSPIF", "data"),
    STEP("5", "-SSPIF", "S BF CKP", "data"),
    STEP("6", "r0=30", "S CKP", "data"),
    STEP("7", "", "S CKP", "data"),                                        /* SEN 0: nothing to release */
    STEP("8", "bA1", "S DA BF CKP", "slot, pulling"),
    STEP("9", "up dn", "S DA BF CKP SSPIF", "data"),
    STEP("10", "-SSPIF", "S DA BF CKP", "data"),
    STEP("11", "r0=A1", "S DA CKP", "data"),
    STEP("12", "bA2 up dn -SSPIF r0=A2", "S DA CKP", "data"),
    STEP("13", "P", "P DA CKP", "quiet"),

    SEQUENCE("brief 2.2.6.1, reception, SEN 1 (figure 2-7)", "+SEN"),
    STEP("1", "S", "S CKP", "address"),
    STEP("2", "", "S CKP", "address"),
    STEP("3", "b30", "S BF CKP", "slot, pulling"),
    STEP("4", "up dn", "S BF SSPIF", "data, held"),
    STEP("5", "-SSPIF", "S BF", "data, held"),
    STEP("6", "r0=30", "S", "data, held"),
    STEP("7", "wait +CKP", "S CKP", "data"),
    STEP("8", "bA1", "S DA BF CKP", "slot, pulling"),
    STEP("9", "up dn", "S DA BF SSPIF", "data, held"),
    STEP("10", "-SSPIF", "S DA BF", "data, held"),
    STEP("11", "r0=A1", "S DA", "data, held"),
    STEP("12", "wait +CKP bA2 up dn -SSPIF r0=A2 wait +CKP", "S DA CKP", "data"),
    STEP("13", "P", "P DA CKP", "quiet"),

    SEQUENCE("brief 2.1.6 and 2.2.6.1 step 2, interrupts on Start and Stop by SCIE and PCIE", "+SCIE +PCIE -SEN"),
    STEP("1", "S", "S CKP SSPIF", "address"),
    STEP("2", "-SSPIF", "S CKP", "address"),
    STEP("3", "b30", "S BF CKP", "slot, pulling"),
    STEP("4", "up dn -SSPIF r0=30", "S CKP", "data"),
    STEP("8", "R", "S CKP SSPIF", "address"),
    STEP("13", "-SSPIF P", "P CKP SSPIF", "quiet"),

    SEQUENCE("brief 2.2, interrupts on Start and Stop by the mode 1110", "no8:2=3E w2=1E w2=3E -SEN"), /* rules: by disabling */
    STEP("1", "S", "S CKP SSPIF", "address"),
    STEP("2", "-SSPIF no8:2=36", "S CKP", "address"),
    STEP("13", "P", "P CKP SSPIF", "quiet"),

    SEQUENCE("brief 2.2.6.2, reception with AHEN and DHEN, SEN 0 (figure 2-8)", "+AHEN +DHEN -SEN"),
    STEP("1", "S", "S CKP", "address"),
    STEP("2", "b30", "S BF ACKTIM SSPIF", "held before acknowledge"),
    STEP("3", "-SSPIF", "S BF ACKTIM", "held before acknowledge"),
    STEP("4", "", "S BF ACKTIM", "held before acknowledge"),               /* ACKTIM 1: before the acknowledge */
    STEP("5", "r0=30", "S ACKTIM", "held before acknowledge"),
    STEP("6", "-ACKDT", "S ACKTIM", "held before acknowledge"),
    STEP("7", "wait +CKP", "S CKP ACKTIM", "slot, pulling"),
    STEP("8a", "up", "S CKP", "slot, pulling"),
    STEP("8b", "dn", "S CKP SSPIF", "data"),                               /* BF is 0 and nothing is held: SSPIF all the same */
    STEP("9", "", "S CKP SSPIF", "data"),                                  /* SEN 0 */
    STEP("10", "-SSPIF", "S CKP", "data"),
    STEP("11", "bA1", "S DA BF ACKTIM SSPIF", "held before acknowledge"),
    STEP("12", "-SSPIF", "S DA BF ACKTIM", "held before acknowledge"),
    STEP("13", "r0=A1", "S DA ACKTIM", "held before acknowledge"),
    STEP("14a", "-ACKDT wait +CKP", "S DA CKP ACKTIM", "slot, pulling"),
    STEP("14b", "up dn", "S DA CKP SSPIF", "data"),
    STEP("14c", "-SSPIF bA2", "S DA BF ACKTIM SSPIF", "held before acknowledge"),
    STEP("14d", "-SSPIF r0=A2 +ACKDT +CKP", "S DA CKP ACKTIM", "slot, declined"),
    STEP("15a", "up", "S DA CKP", "slot, declined"),
    STEP("15b", "dn", "S DA CKP", "quiet"),                                /* no acknowledge by ACKDT alone: no SSPIF */
    STEP("15c", "P", "P DA CKP", "quiet"),                                 /* PCIE 0: P alone tells it */

    SEQUENCE("brief 2.2.6.2, reception with AHEN and DHEN, SEN 1 (figure 2-9)", "+AHEN +DHEN +SEN"),
    STEP("1", "S", "S CKP", "address"),
    STEP("2", "b30", "S BF ACKTIM SSPIF", "held before acknowledge"),
    STEP("3", "-SSPIF", "S BF ACKTIM", "held before acknowledge"),
    STEP("4", "", "S BF ACKTIM", "held before acknowledge"),
    STEP("5", "r0=30", "S ACKTIM", "held before acknowledge"),
    STEP("6", "-ACKDT", "S ACKTIM", "held before acknowledge"),
    STEP("7", "wait +CKP", "S CKP ACKTIM", "slot, pulling"),
    STEP("8", "up dn", "S SSPIF", "data, held"),
    STEP("9", "wait", "S SSPIF", "data, held"),
    STEP("10", "-SSPIF +CKP", "S CKP", "data"),
    STEP("11", "bA1", "S DA BF ACKTIM SSPIF", "held before acknowledge"),
    STEP("12", "-SSPIF", "S DA BF ACKTIM", "held before acknowledge"),
    STEP("13", "r0=A1", "S DA ACKTIM", "held before acknowledge"),
    STEP("14a", "-ACKDT wait +CKP", "S DA CKP ACKTIM", "slot, pulling"),
    STEP("14b", "up dn", "S DA SSPIF", "data, held"),
    STEP("14c", "wait -SSPIF +CKP", "S DA CKP", "data"),
    STEP("15", "P", "P DA CKP", "quiet"),

    SEQUENCE("brief 2.2.2.3, DHEN alone: the address is not held, ACKTIM is shown for it all the same", "+DHEN -SEN"),
    STEP("a", "S b30", "S BF CKP ACKTIM", "slot, pulling"),
    STEP("b", "up", "S BF CKP", "slot, pulling"),
    STEP("c", "dn -SSPIF r0=30", "S CKP", "data"),
    STEP("d", "bA1", "S DA BF ACKTIM SSPIF", "held before acknowledge"),

    SEQUENCE("brief 2.2.7.2, transmission (figure 2-13)", "-SEN"),
    STEP("1", "S", "S CKP", "address"),
    STEP("2", "", "S CKP", "address"),
    STEP("3", "b31", "RW S BF CKP", "slot, pulling"),                      /* rules: SSPIF comes with the ninth fall */
    STEP("4", "up dn", "RW S BF SSPIF", "held for sending"),
    STEP("5", "-SSPIF", "RW S BF", "held for sending"),
    STEP("6", "r0=31", "RW S", "held for sending"),
    STEP("7", "wait", "RW S", "held for sending"),
    STEP("8", "w0=5A", "RW S BF", "held for sending"),
    STEP("9a", "+CKP", "RW S BF CKP", "sending"),
    STEP("9b", "g5A", "RW S DA CKP", "master's acknowledge"),
    STEP("10a", "up0", "RW S DA CKP", "master's acknowledge"),
    STEP("10b", "dn", "RW S DA SSPIF", "held for sending"),
    STEP("11", "-SSPIF", "RW S DA", "held for sending"),
    STEP("12", "wait", "RW S DA", "held for sending"),                     /* ACKSTAT 0: another byte is wanted */
    STEP("13", "w0=C3 +CKP gC3", "RW S DA CKP", "master's acknowledge"),
    STEP("14a", "up", "RW S DA CKP ACKSTAT", "master's acknowledge"),      /* ACKSTAT comes with the ninth rise */
    STEP("14b", "dn", "S DA CKP ACKSTAT SSPIF", "quiet"),                  /* not held, SSPIF all the same */
    STEP("15a", "-SSPIF R", "S CKP ACKSTAT", "address"),
    STEP("15b", "b31 up dn -SSPIF r0=31 w0=81 +CKP g81 up dn", "S DA CKP ACKSTAT SSPIF", "quiet"),
    STEP("15c", "-SSPIF P", "P DA CKP ACKSTAT", "quiet"),

    SEQUENCE("brief 2.2.7.3, transmission with AHEN (figure 2-14)", "+AHEN -SEN"),
    STEP("1", "", "CKP", "quiet"),
    STEP("2", "S", "S CKP", "address"),
    STEP("3", "b31", "RW S BF ACKTIM SSPIF", "held before acknowledge"),
    STEP("4", "-SSPIF", "RW S BF ACKTIM", "held before acknowledge"),
    STEP("5", "", "RW S BF ACKTIM", "held before acknowledge"),
    STEP("6", "r0=31", "RW S ACKTIM", "held before acknowledge"),
    STEP("7", "-ACKDT", "RW S ACKTIM", "held before acknowledge"),
    STEP("8", "wait +CKP", "RW S CKP ACKTIM", "slot, pulling"),
    STEP("9", "up", "RW S CKP", "slot, pulling"),
    STEP("10", "dn", "RW S SSPIF", "held for sending"),
    STEP("11", "-SSPIF", "RW S", "held for sending"),
    STEP("12", "w0=5A", "RW S BF", "held for sending"),
    STEP("13", "wait +CKP", "RW S BF CKP", "sending"),
    STEP("14", "g5A up0", "RW S DA CKP", "master's acknowledge"),
    STEP("15", "dn", "RW S DA SSPIF", "held for sending"),
    STEP("16", "-SSPIF w0=C3 +CKP gC3 up", "RW S DA CKP ACKSTAT", "master's acknowledge"),
    STEP("17a", "dn", "S DA CKP ACKSTAT SSPIF", "quiet"),
    STEP("17b", "P", "P DA CKP ACKSTAT SSPIF", "quiet"),

    SEQUENCE("brief 2.2.7.3, its note on loading before the acknowledge, and step 7 declined", "+AHEN"),
    STEP("6", "S b31 -SSPIF r0=31", "RW S ACKTIM", "held before acknowledge"),
    STEP("12", "w0=77", "RW S WCOL ACKTIM", "held before acknowledge"),    /* rules: WCOL and no more */
    STEP("7", "+ACKDT", "RW S WCOL ACKTIM", "held before acknowledge"),
    STEP("8", "-WCOL +CKP", "RW S CKP ACKTIM", "slot, declined"),
    STEP("9", "up", "RW S CKP", "slot, declined"),
    STEP("10", "dn", "RW S CKP", "quiet"),                                 /* rules: R/W stays until the next condition */

    SEQUENCE("brief 2.2.4, general call (figure 2-5)", "+GCEN -SEN"),
    STEP("a", "S b00", "S BF CKP", "slot, pulling"),
    STEP("b", "up dn", "S BF CKP SSPIF", "data"),
    STEP("c", "-SSPIF r0=00", "S CKP", "data"),
    STEP("d", "b06 up dn", "S DA BF CKP SSPIF", "data"),
    STEP("e", "-SSPIF r0=06 P", "P DA CKP", "quiet"),
    STEP("f", "S b01", "S CKP", "quiet"),                                  /* R/W 1 is no general call */

    SEQUENCE("brief 2.2.4, general call with AHEN and SEN", "+GCEN +AHEN +SEN"),
    STEP("a", "S b00", "S BF ACKTIM SSPIF", "held before acknowledge"),
    STEP("b", "-SSPIF r0=00", "S ACKTIM", "held before acknowledge"),
    STEP("c", "no2:3=91", "S ACKTIM", "held before acknowledge"),            /* rules: ACKEN is the master's alone */
    STEP("d", "wait +CKP", "S CKP ACKTIM", "slot, pulling"),
    STEP("e", "up dn", "S SSPIF", "data, held"),
    STEP("f", "-SSPIF +CKP P", "P CKP", "quiet"),

    SEQUENCE("brief 2.2.4, general call with GCEN 0", "-GCEN"),
    STEP("a", "S b00", "S CKP", "quiet"),

    SEQUENCE("brief 2.2.5, address mask", "w6=F0"),
    STEP("a", "S b40", "S CKP", "quiet"),
    STEP("b", "P S b3E", "S BF CKP", "slot, pulling"),
    STEP("c", "up dn -SSPIF r0=3E +CKP", "S CKP", "data"),

    SEQUENCE("brief 2.2.6 and 2.1.8, overflow: BF stands, then SSPOV alone", "-SEN"),
    STEP("a", "S b30 up dn", "S BF CKP SSPIF", "data"),
    STEP("b", "-SSPIF bA1", "S DA BF SSPOV CKP", "slot, refused"),
    STEP("c", "up", "S DA BF SSPOV CKP", "slot, refused"),
    STEP("d", "dn", "S DA BF SSPOV CKP SSPIF", "quiet"),                   /* rules: SSPIF for a refused byte too */
    STEP("e", "-SSPIF r0=30", "S DA SSPOV CKP", "quiet"),                  /* BUF kept what it had */
    STEP("f", "P S b30", "S BF SSPOV CKP", "slot, refused"),
    STEP("g", "up dn", "S BF SSPOV CKP SSPIF", "quiet"),
    STEP("h", "-SSPIF -SSPOV r0=30", "S CKP", "quiet"),
    STEP("i", "R b30", "S BF CKP", "slot, pulling"),

    SEQUENCE("brief 2.2.6.2 and 2.1.8, overflow with DHEN: held all the same, and not acknowledged", "+DHEN -SEN"),
    STEP("a", "S b30 up dn -SSPIF", "S BF CKP", "data"),
    STEP("b", "bA1", "S DA BF SSPOV ACKTIM SSPIF", "held before acknowledge, refused"),
    STEP("c", "-SSPIF r0=30 -ACKDT wait +CKP", "S DA SSPOV CKP ACKTIM", "slot, refused"),
    STEP("d", "up", "S DA SSPOV CKP", "slot, refused"),
    STEP("e", "dn", "S DA SSPOV CKP SSPIF", "quiet"),                      /* rules: SSPIF a second time */

    SEQUENCE("brief 2.2.7.2 and 2.1.8, overflow at an address that asks to send", "-SEN"),
    STEP("a", "S b30 up dn -SSPIF P", "P BF CKP", "quiet"),
    STEP("b", "S b31 up", "RW S BF SSPOV CKP", "slot, refused"),
    STEP("c", "dn", "RW S BF SSPOV CKP SSPIF", "quiet"),                   /* not held for sending; rules: R/W stays */
    STEP("d", "-SSPIF gFF up dn", "RW S BF SSPOV CKP", "quiet"),           /* nothing is sent */

    SEQUENCE("brief 2.2.7.3 and 2.1.8, overflow with AHEN at an address that asks to send, ACKDT 1", "-SEN"),
    STEP("a", "S b30 up dn -SSPIF P +AHEN +ACKDT", "P BF CKP", "quiet"),
    STEP("b", "S b31", "RW S BF SSPOV ACKTIM SSPIF", "held before acknowledge, refused"),
    STEP("c", "-SSPIF r0=30 -SSPOV", "RW S ACKTIM", "held before acknowledge, refused"),
    STEP("d", "wait +CKP", "RW S CKP ACKTIM", "slot, refused"),            /* rules: the eighth fall has decided */
    STEP("e", "up dn", "RW S CKP SSPIF", "quiet"),

    SEQUENCE("rules, request 4: a received byte by BF and SSPOV as they stand", "-SEN"),
    STEP("BF 0, SSPOV 0", "S b30 up dn", "S BF CKP SSPIF", "data"),
    STEP("BF 1, SSPOV 0", "-SSPIF bA1 up dn", "S DA BF SSPOV CKP SSPIF", "quiet"),
    STEP("BF 1, SSPOV 1", "-SSPIF R b30 up dn", "S BF SSPOV CKP SSPIF", "quiet"),
    STEP("BF 0, SSPOV 1", "-SSPIF r0=30 R b30 up dn", "S BF SSPOV CKP SSPIF", "quiet"),

    SEQUENCE("brief 2.2.6.3, ten-bit reception, SEN 1 (figure 2-10)", "w5=F4 w2=16 w2=37 +SEN"),
    STEP("1", "", "CKP", "quiet"),
    STEP("2", "S", "S CKP", "address"),
    STEP("3", "bF4", "S BF CKP", "slot, pulling, high byte"),              /* rules: UA comes with the ninth fall */
    STEP("4", "up dn", "S UA BF CKP SSPIF", "held for ADD, then low byte"),
    STEP("5", "-SSPIF", "S UA BF CKP", "held for ADD, then low byte"),
    STEP("6", "r0=F4", "S UA CKP", "held for ADD, then low byte"),
    STEP("7", "wait w5=A5", "S CKP", "address, low byte"),
    STEP("8", "bA5", "S BF CKP", "slot, pulling, low byte"),
    STEP("9", "up dn", "S UA BF CKP SSPIF FULL", "held for ADD, then data"), /* SEN 1: CKP stays all the same */
    STEP("10", "-SSPIF", "S UA BF CKP FULL", "held for ADD, then data"),
    STEP("11", "r0=A5", "S UA CKP FULL", "held for ADD, then data"),
    STEP("12", "wait w5=F4", "S CKP FULL", "data"),
    STEP("13", "b31 up", "S DA BF CKP FULL", "slot, pulling"),
    STEP("14", "dn", "S DA BF SSPIF FULL", "data, held"),
    STEP("15", "-SSPIF", "S DA BF FULL", "data, held"),
    STEP("16", "r0=31", "S DA FULL", "data, held"),
    STEP("17", "wait +CKP", "S DA CKP FULL", "data"),
    STEP("18", "b32 up dn -SSPIF r0=32 wait +CKP", "S DA CKP FULL", "data"),
    STEP("19", "P", "P DA CKP", "quiet"),

    SEQUENCE("brief 2.2.6.3, its note on ADD before the acknowledge is over", "w5=F4 w2=16 w2=37 -SEN"),
    STEP("3", "S bF4 w5=A5", "S BF CKP", "slot, pulling, high byte"),      /* rules: stored, and nothing more */
    STEP("4", "up dn", "S UA BF CKP SSPIF", "held for ADD, then low byte"),
    STEP("7", "-SSPIF r0=F4 wait w5=A5", "S CKP", "address, low byte"),

    SEQUENCE("brief 2.2.6.3 and 2.2.1.2, its note on a low byte that does not match", "w5=F4 w2=16 w2=37 +SEN"),
    STEP("7", "S bF4 up dn -SSPIF r0=F4 wait w5=A5", "S CKP", "address, low byte"),
    STEP("8", "bA4", "S CKP", "slot, declined, low byte"),
    STEP("9", "up dn", "S UA CKP SSPIF", "held for ADD, then quiet"),
    STEP("10", "-SSPIF", "S UA CKP", "held for ADD, then quiet"),
    STEP("12", "wait w5=F4", "S CKP", "quiet"),
    STEP("13", "b31 up dn", "S CKP", "quiet"),
    STEP("19", "P", "P CKP", "quiet"),

    SEQUENCE("brief 2.2.2.2, the clock stretched with UA 1, without CKP", "w5=F4 w2=16 w2=37 -SEN"),
    STEP("a", "S bF4 up dn -SSPIF r0=F4", "S UA CKP", "held for ADD, then low byte"),
    STEP("b", "wait +CKP wait", "S UA CKP", "held for ADD, then low byte"),
    STEP("c", "-CKP wait +CKP wait", "S UA CKP", "held for ADD, then low byte"),
    STEP("d", "w5=A5 =1", "S CKP", "address, low byte"),

    SEQUENCE("brief 2.2.6.4, ten-bit reception with AHEN, SEN 0 (figure 2-11)", "w5=F4 w2=16 w2=37 +AHEN -SEN"),
    STEP("a", "S bF4", "S BF ACKTIM SSPIF", "held before acknowledge, high byte"),
    STEP("b", "-SSPIF r0=F4 -ACKDT", "S ACKTIM", "held before acknowledge, high byte"),
    STEP("c", "wait +CKP", "S CKP ACKTIM", "slot, pulling, high byte"),
    STEP("d", "up", "S CKP", "slot, pulling, high byte"),
    STEP("e", "dn", "S UA CKP SSPIF", "held for ADD, then low byte"),
    STEP("f", "-SSPIF wait w5=A5", "S CKP", "address, low byte"),
    STEP("g", "bA5", "S BF ACKTIM SSPIF", "held before acknowledge, low byte"),
    STEP("h", "-SSPIF r0=A5 wait +CKP", "S CKP ACKTIM", "slot, pulling, low byte"),
    STEP("i", "up", "S CKP", "slot, pulling, low byte"),
    STEP("j", "dn", "S UA CKP SSPIF FULL", "held for ADD, then data"),
    STEP("k", "-SSPIF wait w5=F4", "S CKP FULL", "data"),
    STEP("l", "b33", "S DA BF CKP ACKTIM FULL", "slot, pulling"),          /* DHEN 0: data are not held */
    STEP("m", "up dn -SSPIF r0=33", "S DA CKP FULL", "data"),
    STEP("n", "P", "P DA CKP", "quiet"),

    SEQUENCE("brief 2.2.6.4, with DHEN: data are held, the address is not", "w5=F4 w2=16 w2=37 +DHEN -SEN"),
    STEP("a", "S bF4", "S BF CKP ACKTIM", "slot, pulling, high byte"),
    STEP("b", "up dn -SSPIF r0=F4 w5=A5 bA5", "S BF CKP ACKTIM", "slot, pulling, low byte"),
    STEP("c", "up dn -SSPIF r0=A5 w5=F4 b33", "S DA BF ACKTIM SSPIF FULL", "held before acknowledge"),
    STEP("d", "-SSPIF r0=33 +ACKDT wait +CKP", "S DA CKP ACKTIM FULL", "slot, declined"),
    STEP("e", "up dn", "S DA CKP FULL", "quiet"),                          /* rules: the full match stays */

    SEQUENCE("brief 2.2.2.3, a high byte not acknowledged by ACKDT", "w5=F4 w2=16 w2=37 +AHEN +ACKDT"),
    STEP("a", "S bF4 -SSPIF r0=F4 wait +CKP", "S CKP ACKTIM", "slot, declined, high byte"),
    STEP("b", "up dn", "S CKP", "quiet"),                                  /* rules: it fails, so no UA */

    SEQUENCE("brief 2.2.2.3, a low byte not acknowledged by ACKDT", "w5=F4 w2=16 w2=37 +AHEN"),
    STEP("a", "S bF4 -SSPIF r0=F4 +CKP up dn -SSPIF w5=A5 bA5", "S BF ACKTIM SSPIF", "held before acknowledge, low byte"),
    STEP("b", "-SSPIF r0=A5 +ACKDT wait +CKP", "S CKP ACKTIM", "slot, declined, low byte"),
    STEP("c", "up dn", "S UA CKP SSPIF", "held for ADD, then quiet"),      /* rules: UA as for one that does not match */
    STEP("d", "-SSPIF w5=F4", "S CKP", "quiet"),

    SEQUENCE("brief 2.2.7.4, ten-bit transmission, SEN 0 (figures 2-12 and 2-15)", "w5=F4 w2=16 w2=37 -SEN"),
    STEP("1", "S", "S CKP", "address"),
    STEP("2", "", "S CKP", "address"),                                     /* SCIE 0: no SSPIF */
    STEP("4", "bF4", "S BF CKP", "slot, pulling, high byte"),              /* rules: UA and the hold with the ninth fall */
    STEP("6", "up", "S BF CKP", "slot, pulling, high byte"),
    STEP("7", "dn", "S UA BF CKP SSPIF", "held for ADD, then low byte"),
    STEP("8", "r0=F4", "S UA CKP SSPIF", "held for ADD, then low byte"),
    STEP("9", "-SSPIF", "S UA CKP", "held for ADD, then low byte"),
    STEP("10", "wait w5=A5", "S CKP", "address, low byte"),
    STEP("11", "bA5", "S BF CKP", "slot, pulling, low byte"),
    STEP("13", "up dn", "S UA BF CKP SSPIF FULL", "held for ADD, then data"),
    STEP("14", "r0=A5", "S UA CKP SSPIF FULL", "held for ADD, then data"),
    STEP("15", "-SSPIF", "S UA CKP FULL", "held for ADD, then data"),
    STEP("16", "wait w5=F4", "S CKP FULL", "data"),
    STEP("17", "R", "S CKP FULL", "address"),
    STEP("18", "bF5", "RW S BF CKP FULL", "slot, pulling, high byte to send"),
    STEP("20", "r0=F5", "RW S CKP FULL", "slot, pulling, high byte to send"),
    STEP("21", "up dn", "RW S SSPIF FULL", "held for sending"),
    STEP("22", "wait w0=5A", "RW S BF SSPIF FULL", "held for sending"),
    STEP("23", "-SSPIF +CKP", "RW S BF CKP FULL", "sending"),
    STEP("24", "g5A", "RW S DA CKP FULL", "master's acknowledge"),
    STEP("25", "up0 dn", "RW S DA SSPIF FULL", "held for sending"),
    STEP("26", "-SSPIF", "RW S DA FULL", "held for sending"),
    STEP("27a", "w0=C3 +CKP gC3 up", "RW S DA CKP ACKSTAT FULL", "master's acknowledge"),
    STEP("27b", "dn -SSPIF", "S DA CKP ACKSTAT FULL", "quiet"),            /* rules: the master's 1 leaves the full match */
    STEP("27c", "R bF5 up dn -SSPIF r0=F5 w0=81 +CKP g81 up dn -SSPIF", "S DA CKP ACKSTAT FULL", "quiet"),
    STEP("28", "P", "P DA CKP ACKSTAT", "quiet"),

    SEQUENCE("brief 2.2.1.2, to send takes both bytes first", "w5=F4 w2=16 w2=37 -SEN"),
    STEP("a", "S bF5", "S CKP", "quiet"),
    STEP("b", "P S bF4 up dn -SSPIF r0=F4 w5=F4 R bF5", "S CKP", "quiet"),
    STEP("c", "P S bF4 up dn -SSPIF r0=F4 w5=A5 bA5 up dn -SSPIF r0=A5 w5=F4 P", "P CKP", "quiet"),
    STEP("d", "S bF5", "S CKP", "quiet"),                                  /* a Stop has ended the full match */

    SEQUENCE("brief 2.2.4, general call with ten bits", "w5=F4 w2=16 w2=37 +GCEN -SEN"),
    STEP("a", "S b00", "S CKP", "quiet"),                                  /* rules: GCEN has no effect here */

    SEQUENCE("brief 2.2, interrupts on Start and Stop by the mode 1111", "w5=F4 no8:2=3F w2=16 w2=3F -SEN"),
    STEP("1", "S", "S CKP SSPIF", "address"),
    STEP("2", "-SSPIF no8:2=37 no8:2=3E bF4 up dn", "S UA BF CKP SSPIF", "held for ADD, then low byte"),
    STEP("3", "-SSPIF r0=F4 w5=A5 =132", "S CKP SSPIF", "address"),
    STEP("4", "-SSPIF P", "P CKP SSPIF", "quiet"),

    SEQUENCE("brief 2.2.5, the mask with ten bits", "w5=F4 w6=F0 w2=16 no9:2=37"), /* rules: only FF goes with ten bits */
    STEP("a", "w6=FF w2=37 no9:6=F0 no9:6=FE w6=FF", "CKP", "quiet"),

    SEQUENCE("brief 2.1.5, a Stop needs a low SCL before it", ""),
    STEP("a", "S =3", "S CKP", "address"),
    STEP("b", "=2", "S CKP", "address"),
    STEP("c", "b30 up dn -SSPIF r0=30 +CKP", "S CKP", "data"),
    STEP("d", "P", "P CKP", "quiet"),

    SEQUENCE("rules, bench examples: a read of FF cut by a Stop after three bits", ""),
    STEP("a", "S b31 up dn -SSPIF r0=31 w0=FF +CKP", "RW S BF CKP", "sending"),
    STEP("b", "=131313", "RW S BF CKP", "sending"),
    STEP("c", "P", "P CKP", "quiet"),
    STEP("d", "S b30", "S BF CKP", "slot, pulling"),

    SEQUENCE("AN734, typical 7-bit reception", "+SEN +SCIE"),
    STEP("1", "S", "S CKP SSPIF", "address"),
    STEP("2", "-SSPIF", "S CKP", "address"),
    STEP("3", "b30", "S BF CKP", "slot, pulling"),
    STEP("4", "up dn", "S BF SSPIF", "data, held"),
    STEP("5", "-SSPIF", "S BF", "data, held"),
    STEP("6", "r0=30", "S", "data, held"),
    STEP("7", "wait +CKP", "S CKP", "data"),
    STEP("8", "b0A", "S DA BF CKP", "slot, pulling"),
    STEP("9", "up dn", "S DA BF SSPIF", "data, held"),
    STEP("10", "-SSPIF", "S DA BF", "data, held"),
    STEP("11", "r0=0A", "S DA", "data, held"),
    STEP("12", "wait +CKP b01 up dn -SSPIF r0=01 +CKP", "S DA CKP", "data"),
    STEP("13", "P", "P DA CKP", "quiet"),

    SEQUENCE("AN734, typical 7-bit transmission", "+SEN"),
    STEP("1", "S", "S CKP", "address"),
    STEP("2", "", "S CKP", "address"),
    STEP("3", "b31", "RW S BF CKP", "slot, pulling"),
    STEP("4", "up dn", "RW S BF SSPIF", "held for sending"),
    STEP("5", "-SSPIF", "RW S BF", "held for sending"),
    STEP("6", "r0=31", "RW S", "held for sending"),
    STEP("7", "wait", "RW S", "held for sending"),
    STEP("8", "w0=00", "RW S BF", "held for sending"),
    STEP("9", "+CKP g00", "RW S DA CKP", "master's acknowledge"),
    STEP("10", "up0 dn", "RW S DA SSPIF", "held for sending"),
    STEP("11", "-SSPIF", "RW S DA", "held for sending"),
    STEP("12", "", "RW S DA", "held for sending"),
    STEP("13", "w0=FF +CKP gFF", "RW S DA CKP", "master's acknowledge"),
    STEP("14", "up dn", "S DA CKP ACKSTAT SSPIF", "quiet"),
    STEP("15", "-SSPIF P", "P DA CKP ACKSTAT", "quiet"),
    STEP("16", "b30 up dn", "P DA CKP ACKSTAT", "quiet"),                  /* clocks without a Start are no address */
};

#endif
