/* plancheck: prints what is wrong in felling plans, where, and what to type instead. What is found and how it reads is the library's
 * (mihadrena_find, mihadrena_render, mihadrena_summary): here are files, options, memory and the exit status. */
#define _POSIX_C_SOURCE 200112L
#include <errno.h>
#include <stdbool.h>
#include <stdint.h>
#include <stdio.h>
#include <stdlib.h>
#include <string.h>
#include <time.h>
#include <unistd.h>

#include "mihadrena.h"

enum { CLEAN, FOUND, FAILED };

static const char usage[] =
    "usage: plancheck [--brief|--json] [--plain] [--color=auto|always|never] [--max N] [FILE|-]..\n"
    "  --brief      a line for each finding, without the picture\n"
    "  --json       an object of JSON for each finding\n"
    "  --plain      the terminals read in plain mode: what they read otherwise (W07) is an error\n"
    "  --color=WHEN colours: auto, on a terminal and without NO_COLOR; always; never\n"
    "  --max N      tell at most N findings of a file (100)\n"
    "  --help, --version\n"
    "FILE - is the standard input, and so is none. Status: 0 nothing found, 1 findings, 2 a file cannot be read, or usage.\n";

static uint32_t style = MIHADRENA_STYLE_FULL;
static bool plain, colour, progress;
static size_t most = 100;

/* The memory that grows from file to file. */
static uint8_t *source, *out;
static uint32_t *records, *findings;
static size_t source_room, out_room, records_room, findings_room;

/* Room for n bytes at least; without memory the program ends. */
static void *room(void *memory, size_t n)
{
    void *more = realloc(memory, n ? n : 1);
    if (more == NULL) {
        fprintf(stderr, "plancheck: no memory\n");
        exit(FAILED);
    }
    return more;
}

static int failed(const char *name)
{
    fflush(stdout);
    fprintf(stderr, "plancheck: %s: %s\n", name, strerror(errno));
    return FAILED;
}

/* Reads a file to its end, whatever size it tells. */
static bool read_source(FILE *file, size_t *length)
{
    for (*length = 0;;) {
        if (*length == source_room)
            source = room(source, source_room = source_room ? 2 * source_room : 65536);
        size_t got = fread(source + *length, 1, source_room - *length, file);
        *length += got;
        if (got == 0)
            return !ferror(file);
    }
}

/* Finds with an eighth of the bytes as rows, which is enough for most plans, and else with as many as are needed. With --plain there must be
 * room for all findings, since some of those that are not told are errors. */
static void find(size_t length, uint64_t values[2])
{
    if (records_room < MIHADRENA_RECORD_WORDS * (length / 8 + 1))
        records = room(records, (records_room = MIHADRENA_RECORD_WORDS * (length / 8 + 1)) * sizeof *records);
    for (;;) {
        if (mihadrena_find(source, length, records, records_room, findings, findings_room, values, 2) != MIHADRENA_SERVED)
            records = room(records, (records_room = MIHADRENA_RECORD_WORDS * (size_t)values[0]) * sizeof *records);
        else if (plain && findings_room < MIHADRENA_FINDING_WORDS * (size_t)values[0])
            findings = room(findings, (findings_room = MIHADRENA_FINDING_WORDS * (size_t)values[0]) * sizeof *findings);
        else
            return;
    }
}

/* Makes every W07 an error; how many there are. */
static size_t make_errors(size_t found)
{
    size_t made = 0;
    for (size_t i = 0; i < found; i++) {
        uint32_t *finding = findings + i * MIHADRENA_FINDING_WORDS;
        if (finding[0] == MIHADRENA_WARNING && finding[1] == MIHADRENA_PLAIN_OTHERWISE) {
            finding[0] = MIHADRENA_WARNING_AS_ERROR;
            made++;
        }
    }
    return made;
}

/* Writes what a call rendered, once there is room for all of it. */
static bool show(size_t needed)
{
    if (needed > out_room) {
        out = room(out, out_room = needed);
        return false;
    }
    fwrite(out, 1, needed, stdout);
    return true;
}

static int check(FILE *file, const char *name)
{
    size_t length, width = strlen(name);
    uint64_t values[2];
    const uint8_t *title = (const uint8_t *)name;
    if (!read_source(file, &length))
        return failed(name);
    find(length, values);
    size_t found = values[0], errors = values[1] + (plain ? make_errors(found) : 0), told = found < most ? found : most;
    for (size_t i = 0; i < told; i++)
        while (!show(mihadrena_render(findings + i * MIHADRENA_FINDING_WORDS, MIHADRENA_FINDING_WORDS, source, length, title, width, style, colour, out, out_room)))
            ;
    while (!show(mihadrena_summary(title, width, found, errors, told, style, out, out_room)))
        ;
    return found == 0 ? CLEAN : FOUND;
}

static int check_named(const char *name)
{
    if (strcmp(name, "-") == 0)
        return check(stdin, "<stdin>");
    FILE *file = fopen(name, "rb");
    if (file == NULL)
        return failed(name);
    int status = check(file, name);
    fclose(file);
    return status;
}

/* A line of progress, on a terminal, once a second is over. */
static void tell_progress(int done, int all, time_t start)
{
    if (!progress || time(NULL) - start < 2)
        return;
    fflush(stdout);
    fprintf(stderr, "\rplancheck: %d of %d files%s", done, all, done == all ? "\n" : "");
}

static int misused(void)
{
    fputs(usage, stderr);
    return FAILED;
}

int main(int count, char **words)
{
    const char *when = "auto";
    char *end;
    int i, status = CLEAN;
    for (i = 1; i < count && words[i][0] == '-' && words[i][1] != '\0'; i++) {
        if (strcmp(words[i], "--") == 0) {
            i++;
            break;
        } else if (strcmp(words[i], "--brief") == 0) {
            style = MIHADRENA_STYLE_BRIEF;
        } else if (strcmp(words[i], "--json") == 0) {
            style = MIHADRENA_STYLE_JSON;
        } else if (strcmp(words[i], "--plain") == 0) {
            plain = true;
        } else if (strncmp(words[i], "--color=", 8) == 0) {
            when = words[i] + 8;
        } else if (strcmp(words[i], "--max") == 0 && i + 1 < count) {
            most = strtoul(words[++i], &end, 10);
            if (*end != '\0' || end == words[i] || most > 1000000)
                return misused();
        } else if (strcmp(words[i], "--help") == 0) {
            fputs(usage, stdout);
            return CLEAN;
        } else if (strcmp(words[i], "--version") == 0) {
            printf("plancheck %d.%d.%d\n", MIHADRENA_VERSION_MAJOR, MIHADRENA_VERSION_MINOR, MIHADRENA_VERSION_PATCH);
            return CLEAN;
        } else {
            return misused();
        }
    }
    if (strcmp(when, "always") == 0)
        colour = true;
    else if (strcmp(when, "auto") == 0)
        colour = isatty(STDOUT_FILENO) && (getenv("NO_COLOR") == NULL || *getenv("NO_COLOR") == '\0');
    else if (strcmp(when, "never") != 0)
        return misused();
    source = room(NULL, source_room = 65536);
    out = room(NULL, out_room = 4096);
    findings = room(NULL, (findings_room = most * MIHADRENA_FINDING_WORDS) * sizeof *findings);
    progress = count - i > 1 && isatty(STDERR_FILENO);
    time_t start = time(NULL);
    if (i == count)
        status = check_named("-");
    for (int first = i; i < count; i++) {
        int one = check_named(words[i]);
        status = one > status ? one : status;
        tell_progress(i + 1 - first, count - first, start);
    }
    if (fflush(stdout) != 0 || ferror(stdout)) {
        fprintf(stderr, "plancheck: %s\n", strerror(errno));
        return FAILED;
    }
    return status;
}
