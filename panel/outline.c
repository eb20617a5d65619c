/* The panel's outline: draws the nodes of a recipe file, first the declared type's, then the term's, by asking the engine for
 * node after node.
 *
 * How deep a node lies comes from the answers alone: it is as deep as there are nodes before it that end behind it. The kinds
 * are known here only by their names.
 *
 * Status 0: drawn; 1: no whole node starts where one is due, words remain behind a node, or the size or the header is wrong;
 * 2: the file cannot be read, or none is named. */
#include "file.h"

#include <inttypes.h>
#include <string.h>

enum { DRAWN = 0, FAULTY = 1, UNREAD = 2 };

/* Words before the declared type's. */
enum { HEADER = 4 };

static uint32_t words[RECIPE_FILE_BYTES / 4];

/* Where the nodes around a place end, the outermost first. */
static size_t ends[RECIPE_FILE_BYTES / 4];

/* The kinds by their numbers; the four tests share one. */
static const char *const names[] = {
    [RECIPE_TYPE_N] = "N", "L", "list", "function",
    [RECIPE_ML_VARIABLE] = "ML variable", "ML number", "ML lambda", "ML application", "ML fix", "ML add", "ML subtract", "ML if0", "ML nil",
    "ML cons", "ML hd", "ML tl", "ML null?", "ML wrong", "ML ms",
    [RECIPE_SCHEME_VARIABLE] = "Scheme variable", "Scheme number", "Scheme lambda", "Scheme application", "Scheme add", "Scheme subtract",
    "Scheme if0", "Scheme nil", "Scheme cons", "Scheme hd", "Scheme tl",
    [RECIPE_SCHEME_WRONG] = "Scheme wrong", "Scheme sm",
};
static const char *const tests[] = {"Scheme fun?", "Scheme list?", "Scheme null?", "Scheme num?"};

/* The name of a node, by its word. */
static const char *name_of(uint32_t node)
{
    uint32_t kind = node % 256, operand = node / 256;
    if (kind == RECIPE_SCHEME_TEST && operand < sizeof tests / sizeof *tests)
        return tests[operand];
    if (kind < sizeof names / sizeof *names && names[kind] != NULL)
        return names[kind];
    return "a kind that this program does not know";
}

/* Whether a kind has an operand that is shown: variables, numbers and wrongs. */
static int has_operand(uint32_t kind)
{
    return kind == RECIPE_ML_VARIABLE || kind == RECIPE_ML_NUMBER || kind == RECIPE_ML_WRONG ||
           kind == RECIPE_SCHEME_VARIABLE || kind == RECIPE_SCHEME_NUMBER || kind == RECIPE_SCHEME_WRONG;
}

/* The name of a node and its operand, as in `ML number 7`; of a lump its owner, if that is not 0, as in `L7`. */
static void draw_name(uint32_t node)
{
    uint32_t kind = node % 256, operand = node / 256;
    fputs(name_of(node), stdout);
    if (has_operand(kind))
        printf(" %" PRIu32, operand);
    if (kind == RECIPE_TYPE_L && operand > 0)
        printf("%" PRIu32, operand);
    putchar('\n');
}

/* One line: the place, and so deep the node's name and operand. */
static void draw_node(size_t place, size_t depth, size_t size)
{
    printf("%5zu  ", place);
    for (size_t i = 0; i < depth; i++)
        fputs("  ", stdout);
    if (size == 0) {
        puts("no whole node starts here");
        return;
    }
    draw_name(words[place]);
}

/* Draws all nodes from one place up to another, which holds none of their words. FAULTY: they are not those of one node. */
static int draw(size_t from, size_t to)
{
    size_t depth = 0;
    int status = DRAWN;
    for (size_t place = from; place < to; place++) {
        while (depth > 0 && ends[depth - 1] <= place)
            depth--;
        size_t size = recipe_node_checked(words, to, place);
        draw_node(place, depth, size);
        if (size == 0 || (depth == 0 && place > from))
            status = FAULTY;
        if (size > 0)
            ends[depth++] = place + size;
    }
    return status;
}

/* Draws a file, unless its words cannot be found. */
static int draw_file(const char *name, size_t length)
{
    uint64_t number = recipe_check_checked(file, length) % 256;
    if (number == RECIPE_SIZE) {
        fprintf(stderr, "outline: %s has no outline, because its size is wrong: a recipe has 24 to 16,384 bytes, a multiple "
                        "of 4. Look whether the file was sent whole.\n", name);
        return FAULTY;
    }
    if (number == RECIPE_HEADER) {
        fprintf(stderr, "outline: %s has no outline, because its header is wrong: it does not tell where the type and the "
                        "term are. Have the file made or sent anew.\n", name);
        return FAULTY;
    }
    for (size_t i = 0; i < length / 4; i++)
        words[i] = word(i);
    size_t term = HEADER + words[0];
    int type_status = draw(HEADER, term), term_status = draw(term, length / 4);
    return type_status > term_status ? type_status : term_status;
}

int main(int count, char **arguments)
{
    if (count != 2) {
        fprintf(stderr, "usage: outline FILE\n"
                        "Draws the nodes of a recipe file, one to a line: the place of its word, counted from 0, and its "
                        "kind.\n"
                        "Whether the file is accepted is not told: panel checks it.\n");
        return UNREAD;
    }
    size_t length = 0;
    if (!read_file(arguments[1], &length)) {
        fprintf(stderr, "outline: cannot read %s: %s\n", arguments[1], strerror(errno));
        return UNREAD;
    }
    return draw_file(arguments[1], length);
}
