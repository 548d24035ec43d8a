/* A sine is written as a WAV file with a packed header, read again from where it stands, and measured in parts. */
#include <math.h>
#include <stdint.h>
#include <stdio.h>
#include <stdlib.h>
#include <string.h>
#include <bsp.h>

#pragma pack(push, 1)
typedef struct {
    char riff[4];
    uint32_t size;
    char wave[4], fmt[4];
    uint32_t fmt_size;
    uint16_t format, channels;
    uint32_t rate, bytes_per_second;
    uint16_t align, bits;
    char data[4];
    uint32_t bytes;
} WavHeader;
#pragma pack(pop)

_Static_assert(sizeof(WavHeader) == 44, "a header of 44 bytes");

#define RATE 8000
#define COUNT 800

int main(int argc, char **argv)
{
    int16_t samples[COUNT];
    WavHeader h;
    double squares = 0, *all;
    int i, p, s;

    bsp_begin(bsp_nprocs());
    p = bsp_nprocs();
    s = bsp_pid();
    all = malloc(p * sizeof(double));
    bsp_push_reg(all, p * sizeof(double));
    bsp_push_reg(samples, sizeof(samples));
    bsp_sync();
    if (s == 0) {
        FILE *f = fopen("tone.wav", "w+b");
        memcpy(h.riff, "RIFF", 4); memcpy(h.wave, "WAVE", 4); memcpy(h.fmt, "fmt ", 4); memcpy(h.data, "data", 4);
        h.bytes = COUNT * sizeof(int16_t);
        h.size = 36 + h.bytes;
        h.fmt_size = 16; h.format = 1; h.channels = 1; h.rate = RATE; h.bits = 16;
        h.align = h.channels * h.bits / 8;
        h.bytes_per_second = h.rate * h.align;
        fwrite(&h, sizeof(h), 1, f);
        for (i = 0; i < COUNT; i++) {
            int16_t v = (int16_t)lrint(20000 * sin(2 * 3.14159265358979 * 440 * i / RATE));
            fwrite(&v, sizeof(v), 1, f);
        }
        fseek(f, 24, SEEK_SET);
        uint32_t rate;
        if (fread(&rate, 4, 1, f) != 1 || rate != RATE) bsp_abort("rate %u\n", rate);
        fseek(f, -(long)sizeof(samples), SEEK_END);
        size_t got = fread(samples, sizeof(int16_t), COUNT, f);
        printf("%zu samples, at %ld, end %d, min %d\n", got, ftell(f), feof(f), samples[14]);
        fclose(f);
    }
    bsp_sync();
    bsp_get(0, samples, s * (COUNT / p) * sizeof(int16_t), samples, COUNT / p * sizeof(int16_t));
    bsp_sync();
    for (i = 0; i < COUNT / p; i++) squares += (double)samples[i] * samples[i];
    bsp_put(0, &squares, all, s * sizeof(double), sizeof(double));
    bsp_sync();
    if (s == 0) {
        for (squares = i = 0; i < p; i++) squares += all[i];
        printf("rms %.2f, %.1f dB\n", sqrt(squares / COUNT), 20 * log10(sqrt(squares / COUNT) / 32768));
    }
    free(all);
    bsp_end();
    return 0;
}
