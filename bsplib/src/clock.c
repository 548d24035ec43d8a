/* The time of a node, which picolibc leaves to a system. It is what the run has cost so far by the model of BSP, which the machine's clock tells
   in ticks, over a rate. bsprun and bspgdb give the nodes clocks, and put into a copy of the image that they do so: they find the place by
   its magic. Elsewhere a reading would be an unknown call, so the time is 0 there. A program that reads it over and over waits for some
   time to pass, or makes its work longer until that takes some time: so from some reading on each is later than the last one, by twice as
   much. */
#include "bsp.h"
#include "machine.h"

static volatile struct {
    char magic[8];
    unsigned is_on, unused;
    double rate; /* ticks a second */
} place = {"\0bsprun\5", 0, 0, 1e9};

enum { STANDING = 32, MOST_STEP = 1 << 20 };

int bsp_has_clock(void)
{
    return place.is_on != 0;
}

double bsp_tick(void)
{
    return 1.0 / place.rate;
}


static double stood(void)
{
    static unsigned readings = 0, now = 0, step = 1;
    if (readings < STANDING) {
        readings++;
        return 0;
    }
    now += step;
    if (step < MOST_STEP)
        step *= 2;
    return now;
}

double bsp_clock_untold(void)
{
    return place.is_on ? (double)machine_clock() / place.rate : stood();
}

/* The first reading is told of, before it is made, so that no interval has that in it. */
double bsp_clock(void)
{
    static int is_told = 0;
    if (place.is_on && !is_told) {
        is_told = 1;
        bsp_note(NOTE_CLOCK, __builtin_return_address(0), 0, 0, "");
    }
    return bsp_clock_untold();
}

double bsp_time(void)
{
    return bsp_clock();
}

double bsp_dtime(void)
{
    static double last = 0;
    double now = bsp_clock(), passed = now - last;
    last = now;
    return passed;
}
