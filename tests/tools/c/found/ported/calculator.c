#include <bsp.h>
#include <stdarg.h>
#include <stdbool.h>
#include <stdio.h>
#include <stdlib.h>
#include <string.h>
#include <setjmp.h>
/* A calculator for lines, which goes on after a mistake by longjmp: each rank has its lines, and answers come in their order. */
static jmp_buf env;
static const char *at;
static double vars[26];
static char msg[80];
static void fail(const char *fmt, ...)
{
    va_list ap;
    va_start(ap, fmt);
    vsnprintf(msg, sizeof msg, fmt, ap);
    va_end(ap);
    longjmp(env, 1);
}
static double expr(void);
static void skip(void)
{
    while (*at == ' ' || *at == '\t')
        at++;
}
static double atom(void)
{
    skip();
    if (*at == '(') {
        at++;
        double v = expr();
        skip();
        if (*at++ != ')')
            fail("missing )");
        return v;
    }
    if (*at == '-') {
        at++;
        return -atom();
    }
    if (*at >= 'a' && *at <= 'z')
        return vars[*at++ - 'a'];
    char *end;
    double v = strtod(at, &end);
    if (end == at)
        fail("unexpected '%c' (0x%02x)", *at ? *at : '?', (unsigned char)*at);
    at = end;
    return v;
}
static double term(void)
{
    double v = atom();
    for (;;) {
        skip();
        if (*at == '*') {
            at++;
            v *= atom();
        } else if (*at == '/') {
            at++;
            double d = atom();
            if (d == 0)
                fail("division by %s", "zero");
            v /= d;
        } else
            return v;
    }
}
static double expr(void)
{
    double v = term();
    for (;;) {
        skip();
        if (*at == '+') {
            at++;
            v += term();
        } else if (*at == '-') {
            at++;
            v -= term();
        } else
            return v;
    }
}
int main(void)
{
    char line[200];
    int n = 0, total;
    bool ok;
    struct answer {
        int line;
        bool ok;
        double value;
        char text[80];
    } a, *all;
    bsp_begin(bsp_nprocs());
    all = malloc(200 * sizeof *all);
    for (int i = 0; i < 26; i++)
        vars[i] = i + 1;
    int ts = 0;
    bsp_set_tagsize(&ts);
    while (fgets(line, sizeof line, stdin)) {
        line[strcspn(line, "\n")] = 0;
        if (n++ % bsp_nprocs() != bsp_pid())
            continue;
        memset(&a, 0, sizeof a);
        a.line = n;
        at = line;
        if (setjmp(env) == 0) {
            a.value = expr();
            skip();
            if (*at)
                fail("junk: %.10s", at);
            a.ok = true;
        } else {
            a.ok = false;
            strcpy(a.text, msg);
        }
        bsp_send(0, NULL, &a, sizeof a);
    }
    bsp_sync();
    bsp_qsize(&total, NULL);
    for (int i = 0; i < total; i++) {
        bsp_move(&a, sizeof a);
        all[a.line - 1] = a;
    }
    for (int i = 0; i < total; i++) {
        ok = all[i].ok;
        if (ok)
            printf("%d: %.10g\n", i + 1, all[i].value);
        else
            printf("%d: error: %s\n", i + 1, all[i].text);
    }
    bsp_end();
    return 0;
}
