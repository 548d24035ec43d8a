/* Embeds a file in a program: EMBED(text, "FILE") defines text[] and text_end[], and a zero byte follows. */
#ifndef EMBED_H
#define EMBED_H

#define EMBED(name, file) \
    __asm__(".pushsection .rodata\n.balign 16\n.globl " #name "\n" #name ":\n.incbin \"" file "\"\n.globl " #name "_end\n" #name \
            "_end:\n.byte 0\n.popsection\n"); \
    extern const char name[], name##_end[]

/* The length of an embedded file. */
#define LENGTH(name) ((unsigned long)(name##_end - (name)))

/* FNV-1a: continues a sum over more bytes. */
static inline unsigned sum_of(unsigned sum, const void *bytes, unsigned long length) {
    const unsigned char *at = bytes;
    for (unsigned long i = 0; i < length; i++) {
        sum = (sum ^ at[i]) * 16777619u;
    }
    return sum;
}

#define SUM_START 2166136261u

#endif
