/* The second number reader and `string->number` of other Schemes on the same texts.
 *
 *     schemes texts [COUNT]          writes texts, a line each: all short ones of a few characters, and COUNT joins of parts
 *     schemes judge NAME < answers   reads lines of a text, a tab and that Scheme's answer (guile.scm and its like), and counts
 *
 * Where a Scheme differs for a reason that is listed here, that text is counted under it, with the first one as an example. Any other
 * difference is printed, and the exit is non-zero. */
#include <ctype.h>
#include <stdio.h>
#include <stdlib.h>
#include <string.h>

#include "mihadrena.h"

enum { LINE = 4096, SHORT = 4, JOINED = 5, SHOWN = 20 };

static const char alphabet[] = "01+-.eE/iI@#xf";

static const char *const parts[] = {"1",     "0",   "12",     "-2",     "+3",     "1/2",  "1/-2", "3/0",  ".5",   "1.5", "2.",  "1e5",
                                    "1E-5",  "2e+3", "+inf.0", "-nan.0", "+INF.0", "nAn.0", "inF.0", "e",    "ee",   "E",   "i",   "I",
                                    "@",     "+",    "-",      "/",      ".",      "#x",    "#X",    "#b",   "#o",   "#d",  "a",
                                    "F",     "b",    "_",      "9f0",    "n",      "N",     "fA",    "10",   "-",    "+"};

static const size_t part_count = sizeof parts / sizeof *parts;

static uint64_t seed = 1;

static uint32_t below(uint32_t bound)
{
    seed = seed * 6364136223846793005u + 1442695040888963407u;
    return (uint32_t)(seed >> 33) % bound;
}

static void short_texts(char *text, int length)
{
    text[length] = '\0';
    puts(text);
    if (length == SHORT)
        return;
    for (const char *c = alphabet; *c; c++) {
        text[length] = *c;
        short_texts(text, length + 1);
    }
}

static int texts(long count)
{
    char text[SHORT + 1];
    for (const char *c = alphabet; *c; c++) {
        text[0] = *c;
        short_texts(text, 1);
    }
    for (long i = 0; i < count; i++) {
        for (uint32_t n = 1 + below(JOINED); n > 0; n--)
            fputs(parts[below((uint32_t)part_count)], stdout);
        putchar('\n');
    }
    return EXIT_SUCCESS;
}

static mihadrena_parts found;

static uint32_t by_standard(const char *text)
{
    return mihadrena_number_by(MIHADRENA_STANDARD, (const uint8_t *)text, strlen(text), (uint64_t *)&found, MIHADRENA_NUMBER_WORDS);
}

static uint64_t divisor(uint64_t a, uint64_t b)
{
    return b == 0 ? a : divisor(b, a % b);
}

/* Whether an exact answer is the value of the parts that were found; of a Big no value is known. */
static bool is_value(const char *answer)
{
    const mihadrena_real *real = &found.one;
    if (answer[0] != '=')
        return !(found.form == MIHADRENA_REAL && (real->form == MIHADRENA_INTEGER || real->form == MIHADRENA_RATIONAL));
    if (found.form != MIHADRENA_REAL)
        return true; /* 1@0, 1+0i: exact reals there */
    if (real->one.has != MIHADRENA_VALUE || (real->form == MIHADRENA_RATIONAL && real->two.has != MIHADRENA_VALUE))
        return true;
    uint64_t one = real->one.first, two = real->form == MIHADRENA_RATIONAL ? real->two.first : 1;
    uint64_t by = divisor(one, two);
    char value[LINE];
    int n = snprintf(value, sizeof value, "=%s%llu", real->one.minus && one != 0 ? "-" : "", (unsigned long long)(one / by));
    if (two / by != 1)
        snprintf(value + n, sizeof value - (size_t)n, "/%llu", (unsigned long long)(two / by));
    return strcmp(value, answer) == 0;
}

static bool has(const char *text, const char *part)
{
    size_t n = strlen(part);
    for (; *text; text++) {
        size_t i = 0;
        while (i < n && tolower((unsigned char)text[i]) == part[i])
            i++;
        if (i == n)
            return true;
    }
    return false;
}

/* Whether a text is written like a number: one, or one with a zero denominator. */
static bool is_number(const char *text)
{
    uint32_t answer = by_standard(text);
    return answer == MIHADRENA_A_NUMBER || answer == MIHADRENA_ZERO;
}

/* Whether it is a number with the exponent markers of older reports read as e, and with their digit # read as 0 where hashes. */
static bool is_older(const char *text, bool hashes)
{
    char copy[LINE];
    snprintf(copy, sizeof copy, "%s", text);
    for (char *c = copy + 1; copy[0] && *c; c++) {
        if (hashes && *c == '#' && (isxdigit((unsigned char)c[-1]) || c[-1] == '.'))
            *c = '0';
        else if (strchr("sfdl", tolower((unsigned char)*c)) && (isdigit((unsigned char)c[-1]) || c[-1] == '.'))
            *c = 'e';
    }
    return is_number(copy);
}

/* Whether it is a number without the digits after a nan.0. */
static bool is_longer_nan(const char *text)
{
    char copy[LINE];
    size_t n = 0;
    for (const char *c = text; *c; c++) {
        copy[n] = '\0';
        if (n >= 5 && has(copy + n - 5, "nan.0") && isdigit((unsigned char)*c))
            continue;
        copy[n++] = *c;
    }
    copy[n] = '\0';
    return is_number(copy);
}

static bool begins(const char *text, const char *radices)
{
    return text[0] == '#' && text[1] && strchr(radices, tolower((unsigned char)text[1]));
}

/* Whether an exponent marker, today's or an older one, stands after a digit, from a place on; in radix 16 only after a digit #. */
static bool has_marker(const char *text, const char *from)
{
    for (const char *c = from; *c; c++)
        if (c > text && strchr("esfdl", tolower((unsigned char)*c)) &&
            (c[-1] == '#' || (isdigit((unsigned char)c[-1]) && !begins(text, "x"))))
            return true;
    return false;
}

/* Whether an exponent has three digits or more. */
static bool has_long_exponent(const char *text)
{
    for (; *text; text++) {
        const char *c = text + 1;
        if (tolower((unsigned char)*text) != 'e')
            continue;
        if (*c == '+' || *c == '-')
            c++;
        if (isdigit((unsigned char)c[0]) && isdigit((unsigned char)c[1]) && isdigit((unsigned char)c[2]))
            return true;
    }
    return false;
}

typedef struct reason {
    const char *name;
    long count;
    char example[LINE];
} reason;

enum { ZERO, EXACTNESS, MARKER, HASH, NAN_DIGITS, MINUS_NAN, LONG_EXPONENT, RADIX_POINT, RATIO_EXPONENT, REASONS };

static reason reasons[REASONS] = {
    {"a zero denominator refused: error 8 here", 0, ""},
    {"an exactness prefix: left out here", 0, ""},
    {"an exponent marker of older reports (s, f, d, l)", 0, ""},
    {"a # for a digit, as in older reports", 0, ""},
    {"digits after nan.", 0, ""},
    {"-nan.0 refused", 0, ""},
    {"an exponent of three digits or more refused", 0, ""},
    {"a dot or an exponent in another radix than 10", 0, ""},
    {"an exponent after a ratio", 0, ""},
};

/* Why a Scheme may differ on a text, or REASONS. */
static int why(const char *text, uint32_t answer, bool taken)
{
    const char *slash = strchr(text, '/');
    if (answer == MIHADRENA_ZERO)
        return taken ? REASONS : ZERO;
    if (!taken)
        return has(text, "-nan.0") ? MINUS_NAN : has_long_exponent(text) ? LONG_EXPONENT : REASONS;
    if (is_older(text, false))
        return MARKER;
    if (is_older(text, true))
        return HASH;
    if (has(text, "#e") || has(text, "#i"))
        return EXACTNESS;
    if (is_longer_nan(text))
        return NAN_DIGITS;
    if (begins(text, "xob") && (strchr(text, '.') || has_marker(text, text)))
        return RADIX_POINT;
    if (slash && has_marker(text, slash))
        return RATIO_EXPONENT;
    return REASONS;
}

static int judge(const char *name)
{
    char line[LINE];
    long numbers = 0, none = 0, other = 0;
    while (fgets(line, sizeof line, stdin)) {
        line[strcspn(line, "\n")] = '\0';
        char *tab = strchr(line, '\t');
        if (!tab || !tab[1]) {
            fprintf(stderr, "%s: a line without an answer: %s\n", name, line);
            return EXIT_FAILURE;
        }
        *tab = '\0';
        bool taken = tab[1] != '0';
        uint32_t answer = by_standard(line);
        if (answer == MIHADRENA_A_NUMBER && taken && is_value(tab + 1))
            numbers++;
        else if (answer == MIHADRENA_NO_NUMBER && !taken)
            none++;
        else {
            int i = why(line, answer, taken);
            if (i == REASONS) {
                if (other++ < SHOWN)
                    printf("%s: %s: %s there, %u here\n", name, line, tab + 1, answer);
            } else if (reasons[i].count++ == 0)
                snprintf(reasons[i].example, LINE, "%s", line);
        }
    }
    printf("%s: %ld numbers and %ld others alike", name, numbers, none);
    for (int i = 0; i < REASONS; i++)
        if (reasons[i].count > 0)
            printf("; %ld: %s (%s)", reasons[i].count, reasons[i].name, reasons[i].example);
    printf("; %ld otherwise\n", other);
    return other == 0 ? EXIT_SUCCESS : EXIT_FAILURE;
}

int main(int count, char **words)
{
    if (count >= 2 && strcmp(words[1], "texts") == 0)
        return texts(count > 2 ? atol(words[2]) : 100000);
    if (count == 3 && strcmp(words[1], "judge") == 0)
        return judge(words[2]);
    fputs("schemes texts [COUNT] | judge NAME\n", stderr);
    return EXIT_FAILURE;
}
