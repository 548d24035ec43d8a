/* cJSON: parses, searches, copies, compares and prints a file of its own tests, 30 times. */
#include <stdio.h>
#include <stdlib.h>
#include <string.h>

#include "cJSON.h"
#include "embed.h"

#define ROUNDS 30

EMBED(text, "tests.json");

/* Counts the values of a list and below it, and adds up the lengths of names and strings, and the numbers. */
static void count(const cJSON *it, unsigned *values, unsigned long *letters, double *numbers) {
    for (; it; it = it->next) {
        ++*values;
        *letters += (it->string ? strlen(it->string) : 0) + (it->valuestring ? strlen(it->valuestring) : 0);
        *numbers += cJSON_IsNumber(it) ? it->valuedouble : 0;
        count(it->child, values, letters, numbers);
    }
}

int main(void) {
    unsigned sum = SUM_START, values = 0, commented = 0, same = 0;
    unsigned long letters = 0;
    double numbers = 0;
    for (int round = 0; round < ROUNDS; round++) {
        cJSON *whole = cJSON_Parse(text), *copy = cJSON_Duplicate(whole, 1), *test;
        count(whole, &values, &letters, &numbers);
        cJSON_ArrayForEach(test, copy) {
            commented += cJSON_HasObjectItem(test, "comment");
            cJSON_AddNumberToObject(test, "number", round + 0.25);
        }
        char *pretty = cJSON_Print(copy), *dense = cJSON_PrintUnformatted(copy);
        cJSON *again = cJSON_Parse(dense), *other = again->child;
        /* An object that has a name twice is not equal to its copy. */
        for (test = copy->child; test && other; test = test->next, other = other->next) {
            same += cJSON_Compare(test, other, 1);
        }
        sum = sum_of(sum_of(sum, pretty, strlen(pretty)), dense, strlen(dense));
        free(pretty);
        free(dense);
        cJSON_Delete(whole);
        cJSON_Delete(copy);
        cJSON_Delete(again);
    }
    printf("%d rounds: %u values, %lu letters, %u comments, %u equal, numbers %.3f, sum %08x\n", ROUNDS, values, letters, commented, same,
        numbers, sum);
    return 0;
}
