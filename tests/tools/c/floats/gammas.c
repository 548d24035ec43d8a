/* Functions of math.h that are near whole numbers or near 0 where it is easy to be wrong, with the digits that all libraries share. */
#include "show.h"

/* They are exact here. Those of the host may be next to it, as its tgamma(3) is. */
static void factorials(void)
{
#ifdef __riscv
    double product = 1;
    for (int n = 1; n <= 23; n++) {
        volatile double x = n;
        if (tgamma(x) != product || (n <= 14 && tgammaf((float)x) != (float)product))
            printf("tgamma(%d): %.17g and not %.17g\n", n, tgamma(x), product);
        product *= n;
    }
#endif
}

int main(void)
{
    static const double reals[] = {
        0.5, 1.4616321449683622, 2.75, 5.5, 12.25, 100.5, 171.5, 1e-10, -1e-10, -0.5, -3.75, -19.5, -20.5, -100.5, -175.25};
    static const float singles[] = {1e-10f, -1e-21f, -1e-40f, 1e-40f, 0.5f, 35.0f, -0.5f, -3.75f, -30.5f};
    factorials();
    for (int i = 0; i < COUNT(reals); i++)
        printf("%g: %.13g %.13g\n", reals[i], tgamma(reals[i]), lgamma(reals[i]));
    for (int i = 0; i < COUNT(singles); i++)
        printf("%g: %.6g %.6g\n", (double)singles[i], (double)tgammaf(singles[i]), (double)lgammaf(singles[i]));
    for (int i = 1; i < 10; i++) {
        volatile float base = 1 + (float)i / 16, exponent = 100.0f / (float)i;
        printf("%.6g %.6g %.6g\n", (double)powf(base, exponent), (double)erfcf((float)i), (double)cbrtf(base));
    }
    return 0;
}
