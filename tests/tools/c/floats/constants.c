/* Decimal constants, as the compiler and the library round them. */
#include "show.h"

#define TWICE(number) {#number, number, number##f}
static const struct {
    const char *text;
    double number;
    float single;
} CONSTANTS[] = {
    TWICE(0.1), TWICE(0.2), TWICE(0.3), TWICE(1e23), TWICE(8.5e-16), TWICE(3.14159265358979323846), TWICE(9007199254740993.0),
    TWICE(9007199254740995.0), TWICE(16777217.0), TWICE(16777219.0), TWICE(1.00000000000000011102230246251565404),
    TWICE(1.00000000000000011102230246251565405), TWICE(1.00000005960464477539062499), TWICE(1.00000005960464477539062501),
    TWICE(4.35), TWICE(0.000244140625), TWICE(123456789012345678.0), TWICE(7.2057594037927933e16), TWICE(1.17549435e-38),
};
/* What a float has no room for. */
static const struct {
    const char *text;
    double number;
} DOUBLES[] = {
    {"2.2250738585072011e-308", 2.2250738585072011e-308}, {"2.2250738585072014e-308", 2.2250738585072014e-308},
    {"5e-324", 5e-324}, {"2.4703282292062328e-324", 2.4703282292062328e-324}, {"1.7976931348623157e308", 1.7976931348623157e308},
    {"1.7976931348623158e308", 1.7976931348623158e308}, {"6.9294956446009195e15", 6.9294956446009195e15}, {"1e-310", 1e-310},
};

int main(void)
{
    for (int i = 0; i < COUNT(CONSTANTS); i++) {
        show(CONSTANTS[i].text, CONSTANTS[i].number);
        show_float(CONSTANTS[i].text, CONSTANTS[i].single);
        if (bits_of(strtod(CONSTANTS[i].text, NULL)) != bits_of(CONSTANTS[i].number))
            printf("strtod reads another number\n");
        if (bits_of_float(strtof(CONSTANTS[i].text, NULL)) != bits_of_float(CONSTANTS[i].single))
            printf("strtof reads another number\n");
    }
    for (int i = 0; i < COUNT(DOUBLES); i++) {
        show(DOUBLES[i].text, DOUBLES[i].number);
        if (bits_of(atof(DOUBLES[i].text)) != bits_of(DOUBLES[i].number))
            printf("atof reads another number\n");
    }
    return 0;
}
