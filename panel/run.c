/* An example for the controller's engineer: runs one recipe file and prints its end, where its steps went and what it leaves:
 * a number, a list of numbers, or else the words. */
#include "recipe_checked.h"
#include "recipe_value.h"

#include <inttypes.h>
#include <stdio.h>

enum { STEPS = 1000000, WORDS = 4096 };

static uint8_t file[RECIPE_FILE_BYTES + 1];
static uint32_t first[WORDS], second[WORDS], numbers[WORDS];

/* Prints what stands first in the first buffer. After an error that is nothing. */
static void print_left(uint32_t left)
{
    uint32_t number;
    size_t count;
    if (recipe_value_number(first, left, &number)) {
        printf("the number %" PRIu32 "\n", number);
    } else if (recipe_value_list(first, left, numbers, WORDS, &count)) {
        printf("a list of %zu numbers", count);
        for (size_t i = 0; i < count; i++)
            printf("%s%" PRIu32, i == 0 ? ": " : " ", numbers[i]);
        putchar('\n');
    } else {
        for (uint32_t i = 0; i < left; i++)
            printf("%" PRIu32 "%c", first[i], i + 1 < left ? ' ' : '\n');
    }
}

int main(int count, char **names)
{
    static const char *const ends[] = {"value", "spent", "error", "full"};
    FILE *stream = count == 2 ? fopen(names[1], "rb") : NULL;
    if (stream == NULL) {
        fprintf(stderr, "usage: run FILE\n");
        return 2;
    }
    size_t length = fread(file, 1, sizeof file, stream);
    fclose(stream);

    RecipeRun run = recipe_run_checked(file, length, STEPS, first, WORDS, second, WORDS);
    if (run.refusal != 0) {
        printf("refused %" PRIu32 " at word %" PRIu32 "\n", run.refusal, run.place);
        return 1;
    }
    printf("%s, code %" PRIu32 ", %" PRIu32 " steps, %" PRIu32 " words left, %" PRIu32 " wanted\n",
           ends[run.end], run.code, run.steps, run.left, run.wanted);
    printf("%" PRIu32 " calls, %" PRIu32 " conversions, %" PRIu32 " others\n", run.calls, run.conversions, run.others);
    print_left(run.left);
    return 0;
}
