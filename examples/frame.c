/*
 * The frame of the fragment in README.md that corrects each report of a file: here by the sea surface temperature. `make
 * example` takes the fragment from there and puts it in.
 *
 *     frame FILE CORRECTED TEMPERATURE
 *
 * TEMPERATURE is in tenths of a degree C.
 */
#include <stdio.h>
#include <stdlib.h>

#include "lmr5.h"

/* Room for some reports. */
static uint8_t file[4 * LMR5_LONGEST_REPORT];

static int read_file(const char *name, size_t *length)
{
    FILE *from = fopen(name, "rb");
    if (from == NULL) {
        perror(name);
        return 0;
    }
    *length = fread(file, 1, sizeof file, from);
    if (ferror(from) || fgetc(from) != EOF) {
        fprintf(stderr, "frame: %s cannot be read, or is too long\n", name);
        return 0;
    }
    fclose(from);
    return 1;
}

static int write_file(const char *name, size_t length)
{
    FILE *to = fopen(name, "wb");
    if (to == NULL || fwrite(file, 1, length, to) != length || fclose(to) != 0) {
        perror(name);
        return 0;
    }
    return 1;
}

/* Every flag is permitted. */
static lmr5_flag_table table;

int main(int argc, char **argv)
{
    const size_t field = LMR5_S;
    int64_t value;
    size_t length, at, size;
    lmr5_answer answer;
    if (argc != 4) {
        fprintf(stderr, "usage: frame FILE CORRECTED TEMPERATURE\n");
        return 2;
    }
    value = strtol(argv[3], NULL, 10);
    lmr5_all_flags(&table);
    if (!read_file(argv[1], &length))
        return 2;
#include "fragment"
    if (!write_file(argv[2], length))
        return 2;
    return at < length ? 1 : 0;
}
