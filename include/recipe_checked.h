/* The engine's functions with a look at what the caller owes, for debug builds: to copy beside recipe.h.
 *
 * The engine is proved for pointers that are not null, lengths that are true, and buffers that overlap neither each other nor
 * what is read. It does not look, and the same buffer handed over twice gives wrong answers without a word. Each function here
 * looks first, and where something is owed it says on standard error which function and what, and calls abort(). Where all is
 * well it is the engine's function of the same name. With NDEBUG defined, as for assert(), it looks at nothing.
 *
 * Whether a length is true cannot be seen from here: only one that reaches past the end of all addresses is found. */
#ifndef RECIPE_CHECKED_H
#define RECIPE_CHECKED_H

#include "recipe.h"

#include <stdio.h>
#include <stdlib.h>

#ifdef __cplusplus
extern "C" {
#endif

/* Something handed over: its name, where it stands, how many items of how many bytes it has, and whether it is written. */
typedef struct {
    const char *name;
    const void *at;
    size_t items;
    size_t item;
    int written;
} RecipeHanded;

/* Says what is owed, and ends the program. */
static inline void recipe_owed(const char *function, const char *name, const char *owed)
{
    fprintf(stderr, "%s: %s %s\n", function, name, owed);
    abort();
}

/* Looks at one thing that is handed over, by itself. */
static inline void recipe_look_at(const char *function, const RecipeHanded *handed)
{
    uintptr_t at = (uintptr_t)handed->at;
    if (handed->at == NULL)
        recipe_owed(function, handed->name, "is null, which no pointer may be, also where its length is 0");
    if (at % handed->item != 0)
        recipe_owed(function, handed->name, "does not stand where words may: its address is no multiple of 4");
    if (handed->items > (UINTPTR_MAX - at) / handed->item)
        recipe_owed(function, handed->name, "reaches past the end of all addresses: its length is not true");
}

/* Whether two have a byte in common. One of length 0 has none. */
static inline int recipe_overlap(const RecipeHanded *one, const RecipeHanded *other)
{
    uintptr_t from = (uintptr_t)one->at, others = (uintptr_t)other->at;
    if (one->items == 0 || other->items == 0)
        return 0;
    return from < others + other->items * other->item && others < from + one->items * one->item;
}

/* Looks at all that is handed over, each by itself and each with those before it. What is only read may overlap. */
static inline void recipe_look(const char *function, const RecipeHanded *handed, size_t count)
{
    size_t i, before;
    for (i = 0; i < count; i++)
        recipe_look_at(function, &handed[i]);
    for (i = 0; i < count; i++)
        for (before = 0; before < i; before++)
            if ((handed[i].written || handed[before].written) && recipe_overlap(&handed[i], &handed[before])) {
                fprintf(stderr, "%s: %s and %s overlap: the answer would be wrong\n", function, handed[before].name,
                        handed[i].name);
                abort();
            }
}

#ifdef NDEBUG
#define RECIPE_LOOK(function, handed) ((void)(handed))
#else
#define RECIPE_LOOK(function, handed) recipe_look(function, handed, sizeof(handed) / sizeof *(handed))
#endif

/* Bytes and words that are read, and those that are written. */
#define RECIPE_READ(pointer, items) {#pointer, pointer, items, sizeof *(pointer), 0}
#define RECIPE_WRITTEN(pointer, items) {#pointer, pointer, items, sizeof *(pointer), 1}

static inline uint64_t recipe_check_checked(const uint8_t *file, size_t file_len)
{
    const RecipeHanded handed[] = {RECIPE_READ(file, file_len)};
    RECIPE_LOOK("recipe_check", handed);
    return recipe_check(file, file_len);
}

static inline RecipeRun recipe_run_checked(const uint8_t *file, size_t file_len, uint32_t limit, uint32_t *first,
                                           size_t first_len, uint32_t *second, size_t second_len)
{
    const RecipeHanded handed[] = {RECIPE_READ(file, file_len), RECIPE_WRITTEN(first, first_len),
                                   RECIPE_WRITTEN(second, second_len)};
    RECIPE_LOOK("recipe_run", handed);
    return recipe_run(file, file_len, limit, first, first_len, second, second_len);
}

/* The prices as their 27 numbers, so that they are looked at like other words. */
static inline RecipePriced recipe_price_checked(const RecipePrices *prices, const uint8_t *file, size_t file_len,
                                                uint32_t limit, uint32_t *first, size_t first_len, uint32_t *second,
                                                size_t second_len)
{
    const RecipeHanded handed[] = {{"prices", prices, RECIPE_PUMPS * RECIPE_BANDS, sizeof(uint32_t), 0},
                                   RECIPE_READ(file, file_len), RECIPE_WRITTEN(first, first_len),
                                   RECIPE_WRITTEN(second, second_len)};
    RECIPE_LOOK("recipe_price", handed);
    return recipe_price(prices, file, file_len, limit, first, first_len, second, second_len);
}

static inline RecipeCard recipe_card_checked(const RecipePrices *prices, const uint8_t *file, size_t file_len,
                                             uint32_t limit, uint32_t *first, size_t first_len, uint32_t *second,
                                             size_t second_len, uint8_t *card, size_t card_len)
{
    const RecipeHanded handed[] = {{"prices", prices, RECIPE_PUMPS * RECIPE_BANDS, sizeof(uint32_t), 0},
                                   RECIPE_READ(file, file_len), RECIPE_WRITTEN(first, first_len),
                                   RECIPE_WRITTEN(second, second_len), RECIPE_WRITTEN(card, card_len)};
    RECIPE_LOOK("recipe_card", handed);
    return recipe_card(prices, file, file_len, limit, first, first_len, second, second_len, card, card_len);
}

static inline RecipeSaved recipe_save_checked(const uint32_t *type, size_t type_len, const uint32_t *term, size_t term_len,
                                              uint8_t *out, size_t out_len)
{
    const RecipeHanded handed[] = {RECIPE_READ(type, type_len), RECIPE_READ(term, term_len),
                                   RECIPE_WRITTEN(out, out_len)};
    RECIPE_LOOK("recipe_save", handed);
    return recipe_save(type, type_len, term, term_len, out, out_len);
}

static inline size_t recipe_node_checked(const uint32_t *words, size_t words_len, size_t at)
{
    const RecipeHanded handed[] = {RECIPE_READ(words, words_len)};
    RECIPE_LOOK("recipe_node", handed);
    return recipe_node(words, words_len, at);
}

#undef RECIPE_READ
#undef RECIPE_WRITTEN
#undef RECIPE_LOOK

#ifdef __cplusplus
}
#endif

#endif
