/*
 * The plan of the example logger, with its streams' numbers. Inputs: 0 the ring reader, 1 the perch balance (grams), 2 the
 * thermometer (tenths of a degree). Outputs: 6 counts the visits, 13 is each weighing less one gram for every ten degrees of
 * the last known temperature.
 */
#ifndef LOGGER_PLAN_H
#define LOGGER_PLAN_H

static const char PLAN[] =
    "plan=1\nstreams=14\n"
    "op=in\na=0\nb=0\nk=0\nout=0\n"       /*  0 ring numbers */
    "op=in\na=0\nb=0\nk=0\nout=0\n"       /*  1 weights */
    "op=in\na=0\nb=0\nk=0\nout=0\n"       /*  2 temperatures */
    "op=unit\na=0\nb=0\nk=0\nout=0\n"     /*  3 a 0 at stamp 0 */
    "op=last\na=6\nb=0\nk=0\nout=0\n"     /*  4 at each visit the count before it */
    "op=plus\na=4\nb=0\nk=1\nout=0\n"     /*  5 and one more */
    "op=merge\na=5\nb=3\nk=0\nout=1\n"    /*  6 the count of visits */
    "op=last\na=2\nb=1\nk=0\nout=0\n"     /*  7 at each weighing the temperature before it */
    "op=merge\na=2\nb=7\nk=0\nout=0\n"    /*  8 or the one of the same stamp */
    "op=set\na=1\nb=0\nk=1\nout=0\n"      /*  9 a 1 at each weighing */
    "op=keep\na=8\nb=9\nk=0\nout=0\n"     /* 10 the temperature at weighings only */
    "op=set\na=1\nb=0\nk=100\nout=0\n"    /* 11 a 100 at each weighing */
    "op=div\na=10\nb=11\nk=0\nout=0\n"    /* 12 tens of degrees, down to the next whole number */
    "op=sub\na=1\nb=12\nk=0\nout=1\n";    /* 13 the weight less that */

enum { RING = 0, BALANCE = 1, THERMOMETER = 2, VISITS = 6, WEIGHT = 13 };

#endif
