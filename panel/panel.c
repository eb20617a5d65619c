/* The panel's program: checks the recipe files named on the command line and explains each refusal.
 *
 * Status 0: all are accepted; 1: one is refused; 2: a file cannot be read, or none is named. */
#include "file.h"

#include <inttypes.h>
#include <string.h>

enum { ACCEPTED = 0, REFUSED = 1, UNREAD = 2 };

static const char *sentence(uint64_t number)
{
    switch (number) {
    case RECIPE_SIZE:
        return "The file's size is wrong: a recipe has 24 to 16,384 bytes, a multiple of 4.";
    case RECIPE_HEADER:
        return "The header is wrong: a count is 0, an offset is not the one due, "
               "or the words do not add up to the file's length.";
    case RECIPE_NESTING:
        return "This word lies deeper than 256 levels.";
    case RECIPE_SCOPE:
        return "This variable has no lambda of its own language at its operand.";
    case RECIPE_NO_TYPE:
        return "The term has no type: this node's parts are in order, but do not fit together.";
    case RECIPE_OTHER_TYPE:
        return "The term's type is not the declared one: this declared word is the first that differs.";
    default:
        return "The engine gave a number that this program does not know.";
    }
}

/* Of refusal 3: at the end of the file the term ran out; elsewhere the place alone does not tell the cause. */
static const char *word_sentence(uint64_t place, size_t length)
{
    if (place == length / 4)
        return "The file ends here, before the term is complete.";
    return "This word has no kind or operand that is due here, "
           "or the type or the term is complete before it, or the type ends too early.";
}

static void explain(const char *name, uint64_t answer, size_t length)
{
    uint64_t number = answer % 256, place = answer / 256;
    const char *why = number == RECIPE_WORD ? word_sentence(place, length) : sentence(number);
    printf("%s: refused %" PRIu64, name, number);
    if (number >= RECIPE_WORD && number <= RECIPE_OTHER_TYPE)
        printf(" at word %" PRIu64, place);
    printf(". %s\n", why);
}

static int check_file(const char *name)
{
    size_t length = 0;
    if (!read_file(name, &length)) {
        fprintf(stderr, "panel: cannot read %s: %s\n", name, strerror(errno));
        return UNREAD;
    }
    uint64_t answer = recipe_check_checked(file, length);
    if (answer == 0) {
        printf("%s: accepted\n", name);
        return ACCEPTED;
    }
    explain(name, answer, length);
    return REFUSED;
}

int main(int count, char **names)
{
    if (count < 2) {
        fprintf(stderr, "usage: panel FILE...\nChecks recipe files. Words are counted from 0, each of 4 bytes.\n");
        return UNREAD;
    }
    int status = ACCEPTED;
    for (int i = 1; i < count; i++) {
        int found = check_file(names[i]);
        if (found > status)
            status = found;
    }
    return status;
}
