#define _XOPEN_SOURCE 700
#include <stdio.h>
#include <stdlib.h>
#include <string.h>
#include <time.h>
#include <signal.h>
#include <locale.h>
#include "bsp.h"
/* The hits in the log of a server, by hour and by status, and its dates. */
#define MAXL 512
static volatile sig_atomic_t stop;
static void on_int(int sig)
{
    (void)sig;
    stop = 1;
}
int main(int argc, char **argv)
{
    char line[MAXL], ip[40], when[40], req[200], mon[4];
    int status, hits[24] = {0}, codes[6] = {0}, bad = 0, no = 0, d, y, H, M, S;
    long long bytes = 0;
    long b;
    setlocale(LC_ALL, "");
    signal(SIGINT, on_int);
    setvbuf(stdout, NULL, _IOLBF, BUFSIZ);
    bsp_begin(bsp_nprocs());
    time_t first = 0, last = 0;
    while (!stop && fgets(line, MAXL, stdin)) {
        if (no++ % bsp_nprocs() != bsp_pid())
            continue;
        if (sscanf(line, "%39s - - [%39[^]]] \"%199[^\"]\" %d %ld", ip, when, req, &status, &b) != 5) {
            bad++;
            continue;
        }
        if (sscanf(when, "%d/%3[A-Za-z]/%d:%d:%d:%d", &d, mon, &y, &H, &M, &S) != 6) {
            bad++;
            continue;
        }
        struct tm tm;
        memset(&tm, 0, sizeof tm);
        static const char months[] = "JanFebMarAprMayJunJulAugSepOctNovDec";
        tm.tm_year = y - 1900;
        tm.tm_mon = (int)(strstr(months, mon) - months) / 3;
        tm.tm_mday = d;
        tm.tm_hour = H;
        tm.tm_min = M;
        tm.tm_sec = S;
        tm.tm_isdst = 0;
        time_t t = mktime(&tm);
        if (!first || t < first)
            first = t;
        if (t > last)
            last = t;
        hits[H]++;
        codes[status / 100 % 6]++;
        bytes += b;
    }
    struct {
        int hits[24], codes[6], bad;
        long long bytes, first, last;
    } me, *all = calloc(bsp_nprocs(), sizeof me);
    memset(&me, 0, sizeof me);
    memcpy(me.hits, hits, sizeof hits);
    memcpy(me.codes, codes, sizeof codes);
    me.bad = bad;
    me.bytes = bytes;
    me.first = first;
    me.last = last;
    bsp_push_reg(all, bsp_nprocs() * sizeof me);
    bsp_sync();
    bsp_put(0, &me, all, bsp_pid() * sizeof me, sizeof me);
    bsp_sync();
    if (bsp_pid() == 0) {
        long long f = 0, l = 0;
        char text[64];
        for (int i = 1; i < bsp_nprocs(); i++) {
            for (int h = 0; h < 24; h++)
                all[0].hits[h] += all[i].hits[h];
            for (int c = 0; c < 6; c++)
                all[0].codes[c] += all[i].codes[c];
            all[0].bad += all[i].bad;
            all[0].bytes += all[i].bytes;
        }
        for (int i = 0; i < bsp_nprocs(); i++) {
            if (all[i].first && (!f || all[i].first < f))
                f = all[i].first;
            if (all[i].last > l)
                l = all[i].last;
        }
        time_t t = (time_t)f;
        strftime(text, sizeof text, "%Y-%m-%d %H:%M:%S (%A, day %j)", gmtime(&t));
        printf("from %s\n", text);
        t = (time_t)l;
        strftime(text, sizeof text, "%c", gmtime(&t));
        printf("to %s, %.0f s\n", text, difftime(l, f));
        for (int h = 0; h < 24; h++)
            if (all[0].hits[h])
                printf("%02d:00 %d\n", h, all[0].hits[h]);
        printf("2xx %d 3xx %d 4xx %d 5xx %d bad %d, %lld bytes\n", all[0].codes[2], all[0].codes[3], all[0].codes[4], all[0].codes[5],
               all[0].bad, all[0].bytes);
    }
    bsp_end();
    return 0;
}
