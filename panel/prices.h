/* The price table that a program of the panel works with, and how it is read. */
#ifndef PANEL_PRICES_H
#define PANEL_PRICES_H

#include "recipe_checked.h"

#include <ctype.h>
#include <inttypes.h>
#include <stdio.h>

static RecipePrices prices;

/* Passes over blanks, line ends and comments, which run from # to the end of their line. */
static inline void pass(FILE *stream)
{
    int letter = getc(stream);
    while (isspace(letter) || letter == '#') {
        if (letter == '#')
            while (letter != '\n' && letter != EOF)
                letter = getc(stream);
        else
            letter = getc(stream);
    }
    ungetc(letter, stream);
}

/* Reads 27 numbers of at most nine digits, pump by pump. 0: these and nothing else are not there. */
static inline int read_prices(const char *name)
{
    FILE *stream = fopen(name, "r");
    if (stream == NULL)
        return 0;
    int read = 0;
    for (int i = 0; i < RECIPE_PUMPS * RECIPE_BANDS; i++) {
        pass(stream);
        read += fscanf(stream, "%9" SCNu32, &prices.cents[i / RECIPE_BANDS][i % RECIPE_BANDS]) == 1;
    }
    pass(stream);
    int whole = read == RECIPE_PUMPS * RECIPE_BANDS && getc(stream) == EOF;
    fclose(stream);
    return whole;
}

#endif
