/* A test for the controller's engineer: hands the engine buffers that a caller must not, through recipe_checked.h. Built for
 * debugging it ends by abort() with a message; with NDEBUG the engine is called, and what it answers is printed. */
#include "recipe_checked.h"

#include <inttypes.h>
#include <string.h>

enum { WORDS = 64, STEPS = 1000 };

/* add (add 2 3) 4, and a list of 7 that is a sum, each with its header. */
static uint32_t number[] = {1, 4, 5, 5, 1, 21, 21, 529, 785, 1041};
static uint32_t list[] = {2, 4, 6, 6, 3, 1, 25, 21, 785, 1041, 24, 1};
static uint32_t first[2 * WORDS], second[WORDS];
static uint8_t card[RECIPE_CARD_BYTES];
static RecipePrices prices;

/* Prints a run's end and its first word. */
static int told(RecipeRun run, const uint32_t *left)
{
    printf("refusal %" PRIu32 ", end %" PRIu32 ", %" PRIu32 " steps, %" PRIu32 " words left, first %" PRIu32 "\n",
           run.refusal, run.end, run.steps, run.left, left[0]);
    return 0;
}

/* Runs the number's file in two buffers. */
static int run(uint32_t *one, size_t one_len, uint32_t *other, size_t other_len)
{
    return told(recipe_run_checked((uint8_t *)number, sizeof number, STEPS, one, one_len, other, other_len), one);
}

/* Prices the list's file by some prices, in two buffers and with a card in a third. */
static int lay_out(const RecipePrices *by, uint32_t *one, uint32_t *other, uint8_t *out, size_t out_len)
{
    RecipeCard answer = recipe_card_checked(by, (uint8_t *)list, sizeof list, STEPS, one, WORDS, other, WORDS, out, out_len);
    return told(answer.priced.run, one);
}

/* The same without a card. */
static int price(const RecipePrices *by, uint32_t *one)
{
    return told(recipe_price_checked(by, (uint8_t *)list, sizeof list, STEPS, one, WORDS, second, WORDS).run, one);
}

/* Saves the number's words in a buffer. */
static int save(uint8_t *out, size_t out_len)
{
    RecipeSaved saved = recipe_save_checked(number + 4, 1, number + 5, 5, out, out_len);
    printf("refusal %" PRIu32 ", %" PRIu32 " bytes\n", saved.refusal, saved.bytes);
    return 0;
}

/* The cases of a run, by name. */
static int try_run(const char *name)
{
    if (strcmp(name, "apart") == 0)
        return run(first, WORDS, second, WORDS);
    if (strcmp(name, "beside") == 0)
        return run(first, WORDS, first + WORDS, WORDS);
    if (strcmp(name, "same") == 0)
        return run(first, WORDS, first, WORDS);
    if (strcmp(name, "partly") == 0)
        return run(first, WORDS, first + WORDS - 1, WORDS);
    if (strcmp(name, "partly-before") == 0)
        return run(first + 1, WORDS, first, WORDS);
    if (strcmp(name, "same-empty") == 0)
        return run(first, WORDS, first, 0);
    if (strcmp(name, "file") == 0)
        return run(first, WORDS, number + 9, 1);
    if (strcmp(name, "null") == 0)
        return run(first, WORDS, NULL, 0);
    if (strcmp(name, "odd") == 0)
        return run(first, WORDS, (uint32_t *)(void *)((uint8_t *)second + 2), WORDS - 1);
    if (strcmp(name, "endless") == 0)
        return run(first, SIZE_MAX / 4, second, WORDS);
    return 2;
}

/* The cases of the others, by name. */
static int try_other(const char *name)
{
    if (strcmp(name, "card-apart") == 0)
        return lay_out(&prices, first, second, card, sizeof card);
    if (strcmp(name, "card-first") == 0)
        return lay_out(&prices, first, second, (uint8_t *)(first + WORDS) - 1, 100);
    if (strcmp(name, "card-prices") == 0)
        return lay_out(&prices, first, second, (uint8_t *)&prices.cents[8][2] + 3, 1);
    if (strcmp(name, "price-prices") == 0)
        return price((RecipePrices *)(void *)(first + 50), first);
    if (strcmp(name, "price-null") == 0)
        return price(NULL, first);
    if (strcmp(name, "save-apart") == 0)
        return save(card, sizeof card);
    if (strcmp(name, "save-term") == 0)
        return save((uint8_t *)(number + 5), 12);
    if (strcmp(name, "check-null") == 0)
        return (int)recipe_check_checked(NULL, 0);
    if (strcmp(name, "node-null") == 0)
        return (int)recipe_node_checked(NULL, 0, 0);
    return 2;
}

int main(int count, char **names)
{
    if (count != 2)
        return 2;
    int status = try_run(names[1]);
    return status == 2 ? try_other(names[1]) : status;
}
