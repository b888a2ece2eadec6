/* The number call with a choice of reader, as include/mihadrena.h gives it. */
#include <stdio.h>
#include <stdlib.h>
#include <string.h>

#include "mihadrena.h"

static mihadrena_parts parts;

static void expect(bool fact, const char *what)
{
    if (!fact) {
        fprintf(stderr, "number_by: %s\n", what);
        exit(EXIT_FAILURE);
    }
}

static uint32_t by(uint32_t choice, const char *text)
{
    return mihadrena_number_by(choice, (const uint8_t *)text, strlen(text), (uint64_t *)&parts, MIHADRENA_NUMBER_WORDS);
}

static uint32_t few(uint32_t choice, const char *text)
{
    return mihadrena_number_by(choice, (const uint8_t *)text, strlen(text), (uint64_t *)&parts, MIHADRENA_NUMBER_WORDS - 1);
}

/* A text that one reader takes for a number and the other does not. */
static void one_alone(uint32_t choice, const char *text)
{
    uint32_t other = choice == MIHADRENA_BOUGHT ? MIHADRENA_STANDARD : MIHADRENA_BOUGHT;
    expect(by(choice, text) == MIHADRENA_A_NUMBER, text);
    expect(by(other, text) == MIHADRENA_NO_NUMBER, text);
}

int main(void)
{
    expect(by(MIHADRENA_STANDARD, "#xe+1i") == MIHADRENA_A_NUMBER && parts.form == MIHADRENA_COMPLEX, "#xe+1i");
    expect(parts.one.one.has == MIHADRENA_VALUE && parts.one.one.minus == 0 && parts.one.one.first == 14 &&
               parts.two.one.has == MIHADRENA_VALUE && parts.two.one.minus == 0 && parts.two.one.first == 1,
           "#xe+1i, the parts");
    one_alone(MIHADRENA_BOUGHT, "1@1/-2");
    one_alone(MIHADRENA_STANDARD, "+I");
    one_alone(MIHADRENA_STANDARD, "#xe+1i");
    expect(by(MIHADRENA_STANDARD, "1/0") == MIHADRENA_ZERO, "1/0");
    parts.one.form = MIHADRENA_NAN;
    expect(by(MIHADRENA_STANDARD, "1\xff") == MIHADRENA_NOT_UTF8 && parts.form == 1 && parts.one.form == MIHADRENA_NAN, "not UTF-8");
    expect(by(2, "1\xff") == MIHADRENA_UNKNOWN_CHOICE && parts.form == 1, "no choice, before not UTF-8");
    expect(few(2, "1") == MIHADRENA_UNKNOWN_CHOICE, "no choice, before too few words");
    expect(few(MIHADRENA_STANDARD, "\xff") == MIHADRENA_NOT_UTF8 && parts.form == 0, "not UTF-8, before too few words");
    expect(few(MIHADRENA_STANDARD, "1@2") == MIHADRENA_TOO_FEW && parts.form == 0, "too few words");
    puts("the number call with a choice of reader: ok");
    return EXIT_SUCCESS;
}
