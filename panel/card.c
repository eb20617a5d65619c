/* An example for the controller's engineer: prints the batch card of one recipe file's can by a shop's price file, byte for
 * byte as recipe_card lays it out. */
#include "file.h"
#include "prices.h"

#include <inttypes.h>
#include <stdio.h>
#include <stdlib.h>

enum { STEPS = 1000000, WORDS = 4096 };

static uint32_t first[WORDS], second[WORDS];
static uint8_t card[RECIPE_CARD_BYTES];

/* The bytes to lend for the card: all there are, or as many as a word says. */
static size_t lent(const char *word)
{
    unsigned long bytes = word == NULL ? sizeof card : strtoul(word, NULL, 10);
    return bytes < sizeof card ? bytes : sizeof card;
}

/* Prints the card. Why there is none goes to standard error, so that nothing but a card comes to a printer. */
static int print(RecipeCard told)
{
    static const char *const ends[] = {"value", "spent", "error", "full"};
    RecipeRun run = told.priced.run;
    if (run.refusal != 0) {
        fprintf(stderr, "refused %" PRIu32 ", place %" PRIu32 "\n", run.refusal, run.place);
        return 1;
    }
    if (run.end != RECIPE_VALUE) {
        fprintf(stderr, "%s after %" PRIu32 " steps: no card\n", ends[run.end], run.steps);
        return 1;
    }
    return fwrite(card, 1, told.bytes, stdout) == told.bytes && fflush(stdout) == 0 ? 0 : 2;
}

int main(int count, char **names)
{
    size_t length;
    if (count < 3 || count > 4 || !read_prices(names[2]) || !read_file(names[1], &length)) {
        fprintf(stderr, "usage: card FILE PRICES [BYTES]\n"
                        "PRICES has nine rows of three prices: cents for 1,000 pulses. BYTES are lent for the card.\n");
        return 2;
    }
    return print(recipe_card_checked(&prices, file, length, STEPS, first, WORDS, second, WORDS, card,
                                     lent(count == 4 ? names[3] : NULL)));
}
