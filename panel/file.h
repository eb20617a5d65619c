/* The file that a program of the panel works on, and how it is read. */
#ifndef PANEL_FILE_H
#define PANEL_FILE_H

#include "recipe_checked.h"

#include <errno.h>
#include <stdio.h>

/* A longer file is refused by its size, which one byte more than the most shows. */
static uint8_t file[RECIPE_FILE_BYTES + 1];

/* Reads a file, as much as tells whether it is too long. 0: it cannot be read. */
static inline int read_file(const char *name, size_t *length)
{
    FILE *stream = fopen(name, "rb");
    if (stream == NULL)
        return 0;
    errno = 0;
    *length = fread(file, 1, sizeof file, stream);
    int read = !ferror(stream);
    int fault = errno;
    fclose(stream);
    errno = fault;
    return read;
}

/* A word of the file, its lowest byte first. */
static inline uint32_t word(size_t place)
{
    const uint8_t *at = file + 4 * place;
    return at[0] | (uint32_t)at[1] << 8 | (uint32_t)at[2] << 16 | (uint32_t)at[3] << 24;
}

#endif
