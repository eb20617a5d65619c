/* What a run has left, read as a number or as a list of numbers: for the controller's engineer, to copy beside recipe.h.
 *
 * The words are those that stand first in the run's first buffer, as many as its `left` says. recipe.h tells how words are
 * built: the number n is the one word 17 + 256 * n, and a list of numbers is 25 and the number's word for each item, in order,
 * and then 24 and 1. A recipe of type N comes to the first, one of type {N} to the second.
 *
 * The functions take any words of any length, read none past it, allocate nothing and write nothing but where they say. They
 * need nothing of the engine's archive. C99 or later, or C++. */
#ifndef RECIPE_VALUE_H
#define RECIPE_VALUE_H

#include "recipe.h"

#ifdef __cplusplus
extern "C" {
#endif

/* The kind of a word, and its operand. */
static inline uint32_t recipe_kind(uint32_t word)
{
    return word % 256u;
}

static inline uint32_t recipe_operand(uint32_t word)
{
    return word / 256u;
}

/* Whether the words are exactly a number. 1: `*number` is it, 0 to 16,777,215. 0: they are something else, and nothing is
 * written. */
static inline int recipe_value_number(const uint32_t *words, size_t words_len, uint32_t *number)
{
    if (words_len != 1 || recipe_kind(words[0]) != RECIPE_ML_NUMBER)
        return 0;
    *number = recipe_operand(words[0]);
    return 1;
}

/* Whether the words are exactly a list of numbers. 1: `*count` says how many items it has, and as many of them as `numbers`
 * holds stand there, from the first: where the count is over `numbers_len`, the rest did not fit. 0: the words are something
 * else, and nothing is written. */
static inline int recipe_value_list(const uint32_t *words, size_t words_len, uint32_t *numbers, size_t numbers_len,
                                    size_t *count)
{
    size_t items, i;
    if (words_len < 2 || words_len % 2 != 0)
        return 0;
    items = words_len / 2 - 1;
    if (words[2 * items] != RECIPE_ML_NIL || words[2 * items + 1] != RECIPE_TYPE_N)
        return 0;
    for (i = 0; i < items; i++)
        if (words[2 * i] != RECIPE_ML_CONS || recipe_kind(words[2 * i + 1]) != RECIPE_ML_NUMBER)
            return 0;
    for (i = 0; i < items && i < numbers_len; i++)
        numbers[i] = recipe_operand(words[2 * i + 1]);
    *count = items;
    return 1;
}

#ifdef __cplusplus
}
#endif

#endif
