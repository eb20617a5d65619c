/* An example for the controller's engineer: prices the can of one recipe file by a shop's price file, and prints the charge
 * of each pump and the total. */
#include "prices.h"

#include <inttypes.h>
#include <stdio.h>

enum { STEPS = 1000000, WORDS = 4096 };

static uint8_t file[RECIPE_FILE_BYTES + 1];
static uint32_t first[WORDS], second[WORDS];

int main(int count, char **names)
{
    static const char *const ends[] = {"value", "spent", "error", "full"};
    FILE *stream = count == 3 && read_prices(names[2]) ? fopen(names[1], "rb") : NULL;
    if (stream == NULL) {
        fprintf(stderr, "usage: price FILE PRICES\nPRICES has nine rows of three prices: cents for 1,000 pulses.\n");
        return 2;
    }
    size_t length = fread(file, 1, sizeof file, stream);
    fclose(stream);

    RecipePriced priced = recipe_price_checked(&prices, file, length, STEPS, first, WORDS, second, WORDS);
    if (priced.run.refusal != 0) {
        printf("refused %" PRIu32 ", place %" PRIu32 "\n", priced.run.refusal, priced.run.place);
        return 1;
    }
    if (priced.run.end != RECIPE_VALUE) {
        printf("%s after %" PRIu32 " steps: no charge\n", ends[priced.run.end], priced.run.steps);
        return 0;
    }
    for (int pump = 0; pump < RECIPE_PUMPS; pump++)
        printf("pump %d: %" PRIu64 " cents\n", pump + 1, priced.charge[pump]);
    printf("total: %" PRIu64 " cents\n", priced.total);
    return 0;
}
