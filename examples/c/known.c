/* Whether the names and the words of include/mihadrena_plan.h are those of every kind, error and refusal that include/mihadrena.h defines:
 * `run` writes their names to known.inc, a line KIND(..), ERROR(..) or REFUSAL(..) each. */
#include <stdio.h>
#include <stdlib.h>
#include <string.h>

#include "mihadrena_plan.h"

/* Numbers pass this at most. */
#define NUMBERS 200

static size_t kinds, errors, refusals;

static void expect(bool fact, const char *what)
{
    if (!fact) {
        fprintf(stderr, "known: %s\n", what);
        exit(EXIT_FAILURE);
    }
}

/* A number has words that no smaller one has, and that are not those for no number. */
static void has_message(uint32_t number, const char *name)
{
    expect(strcmp(mihadrena_message(number), mihadrena_message(NUMBERS)) != 0, name);
    for (uint32_t other = 0; other < number; other++)
        expect(strcmp(mihadrena_message(other), mihadrena_message(number)) != 0, name);
}

static void has_name(uint32_t kind, const char *name)
{
    expect(strcmp(mihadrena_kind_name(kind), name) == 0, name);
}

#define KIND(name) (kinds++, has_name(MIHADRENA_##name, #name), expect(!mihadrena_is_error(MIHADRENA_##name), #name));
#define ERROR(name)                                           \
    (errors++, has_name(MIHADRENA_##name, #name),             \
     expect(mihadrena_is_error(MIHADRENA_##name), #name), has_message(MIHADRENA_##name, #name));
#define REFUSAL(name) (refusals++, has_message(MIHADRENA_##name, #name));

int main(void)
{
#include "known.inc"
    expect(kinds == MIHADRENA_DOT + 1, "every kind is listed");
    expect(errors == MIHADRENA_INVALID_CHAR_DELIMITER - MIHADRENA_FIRST_ERROR, "every error is listed");
    expect(refusals == MIHADRENA_ALIEN - MIHADRENA_TOO_LONG + 1, "every refusal is listed");
    /* and no other number has a name or words */
    size_t named = 0, told = 0;
    for (uint32_t number = 0; number < NUMBERS; number++) {
        named += strcmp(mihadrena_kind_name(number), "no kind") != 0;
        told += strcmp(mihadrena_message(number), "no such number") != 0;
    }
    expect(named == kinds + errors && told == errors + refusals, "no other number is known");
    printf("known: %zu kinds, %zu errors, %zu refusals\n", kinds, errors, refusals);
    return EXIT_SUCCESS;
}
