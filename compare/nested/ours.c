/* Writes a line for each text of up to N tokens, for each text of some depth, or for each file: the text or the file's name, a tab, and the data as
 * `mihadrena_nest` gives them, or ! for a refusal, with its number and the line where it is.
 *
 *     ours N               of brackets, a vector, marks, #;, dots and a
 *     ours --marks N       of curly brackets, all quoting marks, #;, dots and a
 *     ours --deep          of 1 to 70 levels
 *     ours --files FILE..
 *
 * Data are written as a Scheme has them: (a . (b)) is (a b), and 'a is (quote a). A curly list keeps its brackets, since Guile reads them otherwise than
 * round ones. Of files only the shape is written: every simple datum, and the name that a mark stands for, is a.
 */
#include <stdio.h>
#include <stdlib.h>
#include <string.h>

#include "mihadrena.h"

static const char *const TOKENS[] = {"(", ")", "[", "]", "#(", "'", ",@", "#;", ".", "a", NULL};
static const char *const MARK_TOKENS[] = {"(", ")", "{", "}", "`", ",", "#'", "#`", "#,", "#,@", "#;", ".", "a", NULL};

/* The openers of deep texts, each with its close, and what stands innermost. */
static const char *const OPENERS[][2] = {{"( ", ") "}, {"[ ", "] "}, {"#( ", ") "}, {"' ", ""}, {"#,@ ", ""}, {"#; ", "a "}, {"( #; ' ", "a ) "}, {"( a . ", ") "}};

enum { OPENER_COUNT = sizeof OPENERS / sizeof *OPENERS, DEEPEST_TEXT = 70, LONGEST_TEXT = 1 << 20 };

static mihadrena_record records[LONGEST_TEXT];
static mihadrena_node nodes[LONGEST_TEXT];
static uint8_t memory[LONGEST_TEXT];
static bool shape;

static void data(size_t from, size_t to);
static void dotted(size_t list);

static size_t past(size_t node)
{
    return node + 1 + nodes[node].beneath;
}

/* What a Scheme calls the eight marks, in the order of their kinds. */
static const char *const MARKS[] = {"quote", "quasiquote", "unquote", "unquote-splicing", "syntax", "quasisyntax", "unsyntax", "unsyntax-splicing"};

static const char *mark(size_t node)
{
    return shape ? "a" : MARKS[records[nodes[node].item].kind - MIHADRENA_QUOTE_TICK];
}

/* Whether a list stands in curly brackets, which are kept. */
static bool curly(size_t node)
{
    return !shape && records[nodes[node].item].detail == MIHADRENA_CURLY;
}

/* The datum behind a dot: what is a list there goes on with the list that it ends. */
static void tail(size_t node)
{
    switch (nodes[node].kind) {
    case MIHADRENA_NODE_LIST:
        if (curly(node)) {
            printf(" . ");
            data(node, past(node));
            break;
        }
        if (nodes[node].beneath > 0)
            printf(" ");
        data(node + 1, past(node));
        break;
    case MIHADRENA_NODE_DOTTED_LIST:
        if (curly(node)) {
            printf(" . ");
            data(node, past(node));
            break;
        }
        printf(" ");
        dotted(node);
        break;
    case MIHADRENA_NODE_MARK:
        printf(" %s ", mark(node));
        data(node + 1, past(node));
        break;
    default:
        printf(" . ");
        data(node, past(node));
    }
}

/* The children of a dotted list, the last one behind the dot. */
static void dotted(size_t list)
{
    size_t node = list + 1;
    for (; past(node) < past(list); node = past(node)) {
        if (node > list + 1)
            printf(" ");
        data(node, past(node));
    }
    tail(node);
}

static void datum(size_t node)
{
    switch (nodes[node].kind) {
    case MIHADRENA_NODE_BOOLEAN:
    case MIHADRENA_NODE_NUMBER:
    case MIHADRENA_NODE_CHARACTER:
    case MIHADRENA_NODE_STRING:
    case MIHADRENA_NODE_SYMBOL:
    case MIHADRENA_NODE_BYTE_LIST:
        printf("a");
        break;
    case MIHADRENA_NODE_VECTOR:
        printf("#(");
        data(node + 1, past(node));
        printf(")");
        break;
    case MIHADRENA_NODE_LIST:
        printf(curly(node) ? "{" : "(");
        data(node + 1, past(node));
        printf(curly(node) ? "}" : ")");
        break;
    case MIHADRENA_NODE_DOTTED_LIST:
        printf(curly(node) ? "{" : "(");
        dotted(node);
        printf(curly(node) ? "}" : ")");
        break;
    case MIHADRENA_NODE_MARK:
        printf("(%s ", mark(node));
        data(node + 1, past(node));
        printf(")");
        break;
    default:
        abort();
    }
}

static void data(size_t from, size_t to)
{
    for (size_t node = from; node < to; node = past(node)) {
        if (node > from)
            printf(" ");
        datum(node);
    }
}

/* The line of a text's byte, counted from 1. */
static int line_of(const uint8_t *text, size_t at)
{
    int line = 1;
    for (size_t i = 0; i < at; i++)
        line += text[i] == '\n';
    return line;
}

static void line(const char *name, const uint8_t *text, size_t length)
{
    uint64_t values[MIHADRENA_READ_VALUES];
    printf("%s\t", name);
    if (mihadrena_read(text, length, MIHADRENA_PLAIN, false, (uint32_t *)records, (size_t)LONGEST_TEXT * MIHADRENA_RECORD_WORDS, memory,
                       sizeof memory, values, MIHADRENA_READ_VALUES) != MIHADRENA_SERVED)
        abort();
    uint32_t answer = mihadrena_nest((const uint32_t *)records, values[0] * MIHADRENA_RECORD_WORDS, (uint32_t *)nodes,
                                     (size_t)LONGEST_TEXT * MIHADRENA_NODE_WORDS, values, MIHADRENA_NEST_VALUES);
    if (answer == MIHADRENA_SERVED)
        data(0, values[0]);
    else if (shape)
        printf("! %u, line %d", (unsigned)answer, line_of(text, records[values[0]].start));
    else
        printf("!");
    printf("\n");
}

static void file_line(const char *path)
{
    static uint8_t text[LONGEST_TEXT];
    FILE *file = fopen(path, "rb");
    if (file == NULL)
        abort();
    line(path, text, fread(text, 1, sizeof text, file));
    fclose(file);
}

/* All texts of these tokens that start with `text`, of which `length` bytes are there, and have up to `left` tokens more. */
static void lines(const char *const *tokens, char *text, size_t length, int left)
{
    text[length] = '\0';
    line(text, (const uint8_t *)text, length);
    if (left == 0)
        return;
    for (const char *const *token = tokens; *token != NULL; token++)
        lines(tokens, text, length + (size_t)sprintf(text + length, "%s ", *token), left - 1);
}

static size_t repeated(char *text, size_t length, const char *part, int times)
{
    while (times-- > 0)
        length += (size_t)sprintf(text + length, "%s", part);
    return length;
}

/* For each pair of openers the texts with so many of the one around so many of the other, around a. */
static void deep_lines(char *text)
{
    for (int outer = 0; outer < OPENER_COUNT; outer++)
        for (int inner = 0; inner < OPENER_COUNT; inner++)
            for (int depth = 1; depth <= DEEPEST_TEXT; depth++)
                for (int half = 0; half <= depth; half += 1 + depth / 8) {
                    size_t length = repeated(text, 0, OPENERS[outer][0], half);
                    length = repeated(text, length, OPENERS[inner][0], depth - half);
                    length = repeated(text, length, "a ", 1);
                    length = repeated(text, length, OPENERS[inner][1], depth - half);
                    length = repeated(text, length, OPENERS[outer][1], half);
                    line(text, (const uint8_t *)text, length);
                }
}

int main(int count, char **words)
{
    static char text[LONGEST_TEXT];
    const char *what = count > 1 ? words[1] : "4";
    shape = strcmp(what, "--files") == 0;
    for (int word = 2; shape && word < count; word++)
        file_line(words[word]);
    if (strcmp(what, "--deep") == 0)
        deep_lines(text);
    else if (strcmp(what, "--marks") == 0)
        lines(MARK_TOKENS, text, 0, count > 2 ? atoi(words[2]) : 4);
    else if (!shape)
        lines(TOKENS, text, 0, atoi(what));
    return EXIT_SUCCESS;
}
