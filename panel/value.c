/* An example for the controller's engineer: tells of the words on the command line whether they are a number or a list of
 * numbers, as recipe_value.h reads them. At most nine numbers are kept, one for each pump.
 *
 * Status 0: they are; 1: they are something else; 2: a word is no number of 32 bits, or there are too many. */
#include "recipe_value.h"

#include <inttypes.h>
#include <stdio.h>
#include <stdlib.h>

enum { MOST = 64, UNTOUCHED = 4242 };

static uint32_t words[MOST];

/* Reads the words. 0: one is no number of 32 bits. */
static int read_words(int count, char **texts)
{
    for (int i = 0; i < count; i++) {
        char *end;
        unsigned long long number = strtoull(texts[i], &end, 10);
        if (*end != '\0' || end == texts[i] || number > UINT32_MAX)
            return 0;
        words[i] = (uint32_t)number;
    }
    return 1;
}

/* Tells what so many words are. What they are not leaves the places for the answer as they were. */
static int tell(size_t left)
{
    uint32_t number = UNTOUCHED, numbers[RECIPE_PUMPS + 1] = {0};
    size_t count = UNTOUCHED;
    numbers[RECIPE_PUMPS] = UNTOUCHED;
    int is_number = recipe_value_number(words, left, &number);
    int is_list = recipe_value_list(words, left, numbers, RECIPE_PUMPS, &count);
    if (numbers[RECIPE_PUMPS] != UNTOUCHED || (!is_number && number != UNTOUCHED) || (!is_list && count != UNTOUCHED))
        printf("written where nothing is due\n");
    if (is_number)
        printf("the number %" PRIu32 "\n", number);
    if (is_list) {
        printf("a list of %zu numbers:", count);
        for (size_t i = 0; i < count && i < RECIPE_PUMPS; i++)
            printf(" %" PRIu32, numbers[i]);
        puts(count > RECIPE_PUMPS ? " .." : "");
    }
    if (!is_number && !is_list)
        puts("something else");
    return is_number || is_list ? 0 : 1;
}

int main(int count, char **texts)
{
    if (count - 1 > MOST || !read_words(count - 1, texts + 1)) {
        fprintf(stderr, "usage: value WORD...\nAt most 64 words, each 0 to 4294967295.\n");
        return 2;
    }
    return tell((size_t)(count - 1));
}
