/* An example for the controller's engineer: runs one recipe file for some steps and, where that does not end it, saves what is
 * left as a recipe file, which goes on where this one stopped. */
#include "file.h"

#include <inttypes.h>
#include <stdlib.h>

enum { WORDS = 4096 };

static uint8_t saved[RECIPE_FILE_BYTES];
static uint32_t first[WORDS], second[WORDS], type[RECIPE_FILE_BYTES / 4];

/* Writes the saved file. 0: it cannot be written. */
static int write_file(const char *name, size_t length)
{
    FILE *stream = fopen(name, "wb");
    if (stream == NULL)
        return 0;
    int written = fwrite(saved, 1, length, stream) == length;
    return fclose(stream) == 0 && written;
}

/* Saves what a run has left, with the type that its file declares: the run has accepted the file, so its header is in order. */
static int save(const char *name, uint32_t left)
{
    uint32_t types = word(0);
    for (uint32_t i = 0; i < types; i++)
        type[i] = word(4 + i);
    RecipeSaved answer = recipe_save_checked(type, types, first, left, saved, sizeof saved);
    if (answer.refusal != 0) {
        printf("refused %" PRIu32 ", place %" PRIu32 "\n", answer.refusal, answer.place);
        return 1;
    }
    if (!write_file(name, answer.bytes)) {
        fprintf(stderr, "save: cannot write %s\n", name);
        return 2;
    }
    printf("saved in %s, %" PRIu32 " bytes\n", name, answer.bytes);
    return 0;
}

int main(int count, char **names)
{
    static const char *const ends[] = {"value", "spent", "error", "full"};
    FILE *stream = count == 4 ? fopen(names[1], "rb") : NULL;
    if (stream == NULL) {
        fprintf(stderr, "usage: save FILE STEPS OUT\n");
        return 2;
    }
    size_t length = fread(file, 1, sizeof file, stream);
    fclose(stream);

    uint32_t limit = (uint32_t)strtoul(names[2], NULL, 10);
    RecipeRun run = recipe_run_checked(file, length, limit, first, WORDS, second, WORDS);
    if (run.refusal != 0) {
        printf("refused %" PRIu32 " at word %" PRIu32 "\n", run.refusal, run.place);
        return 1;
    }
    printf("%s, code %" PRIu32 ", %" PRIu32 " steps, %" PRIu32 " words left, %" PRIu32 " wanted\n",
           ends[run.end], run.code, run.steps, run.left, run.wanted);
    printf("%" PRIu32 " calls, %" PRIu32 " conversions, %" PRIu32 " others\n", run.calls, run.conversions, run.others);
    if (run.end == RECIPE_SPENT || run.end == RECIPE_FULL)
        return save(names[3], run.left);
    printf("nothing is saved\n");
    return 0;
}
