/* Walks the nested lists of a plan: prints the plan, its stands, the outlines of each, and the corners of each of these. Report mode,
 * comments left out.
 *
 *     nested FILE
 */
#include <inttypes.h>
#include <stdio.h>
#include <stdlib.h>
#include <string.h>

#include "file.h"
#include "mihadrena_plan.h"

static void fail(const char *what, uint64_t value)
{
    fprintf(stderr, "nested: %s %" PRIu64 "\n", what, value);
    exit(EXIT_FAILURE);
}

static void *memory(size_t count, size_t size)
{
    void *got = calloc(count + 1, size);
    if (got == NULL)
        fail("no memory for", count);
    return got;
}

/* There are never more records than bytes, nor more nodes than records. */
static void read_plan(mihadrena_plan *p, const char *path)
{
    p->source = file_bytes(path, &p->source_length);
    if (p->source == NULL)
        fail("cannot read the file", 0);
    p->records_room = p->text_room = p->nodes_room = p->source_length;
    p->records = memory(p->records_room, sizeof *p->records);
    p->text = memory(p->text_room, 1);
    p->nodes = memory(p->nodes_room, sizeof *p->nodes);
    uint32_t answer = mihadrena_read_all(p, MIHADRENA_REPORT, true);
    if (answer != MIHADRENA_SERVED)
        fail(mihadrena_message(answer), p->place);
    answer = mihadrena_nest_all(p);
    if (answer != MIHADRENA_SERVED)
        fail(mihadrena_message(answer), p->place);
}

static const uint8_t *spelling(const mihadrena_plan *p, size_t node, size_t *length)
{
    return mihadrena_spelling(p, &p->records[p->nodes[node].item], length);
}

/* Whether a node is a list that starts with this name. */
static bool is_list_of(const mihadrena_plan *p, size_t node, const char *name)
{
    size_t first = mihadrena_child(p, node), length;
    if (p->nodes[node].kind != MIHADRENA_NODE_LIST || first == p->tree || p->nodes[first].kind != MIHADRENA_NODE_SYMBOL)
        return false;
    const uint8_t *own = spelling(p, first, &length);
    return length == strlen(name) && memcmp(own, name, length) == 0;
}

/* Prints a list's name and those of its data that are no lists, as they stand in the source. */
static void print_list(const mihadrena_plan *p, size_t list, int indent)
{
    printf("%*s", indent, "");
    for (size_t node = mihadrena_child(p, list); node < p->tree; node = mihadrena_sibling(p, list, node)) {
        const mihadrena_record *record = &p->records[p->nodes[node].item];
        if (p->nodes[node].kind <= MIHADRENA_NODE_SYMBOL)
            printf("%s%.*s", node == mihadrena_child(p, list) ? "" : " ", (int)(record->end - record->start),
                   (const char *)p->source + record->start);
    }
    printf("\n");
}

/* Prints the stands of a plan, the outlines of a stand and the corners of an outline: the lists of the first name among the nodes from one
 * on, directly beneath `within`, and beneath each those of the next name. */
static void walk(const mihadrena_plan *p, size_t within, size_t first, int indent, const char *const *names)
{
    if (*names == NULL)
        return;
    for (size_t node = first; node < p->tree; node = mihadrena_sibling(p, within, node)) {
        if (!is_list_of(p, node, *names))
            continue;
        print_list(p, node, indent);
        walk(p, node, mihadrena_child(p, node), indent + 2, names + 1);
    }
}

int main(int count, char **words)
{
    static const char *const NAMES[] = {"plan", "stand", "outline", "corner", NULL};
    mihadrena_plan p = {0};
    if (count != 2)
        fail("usage: nested FILE, not words", (uint64_t)count);
    read_plan(&p, words[1]);
    walk(&p, p.tree, 0, 0, NAMES);
    return EXIT_SUCCESS;
}
