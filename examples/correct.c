/*
 * Corrects the sea surface temperature of a report, and flags it. Prints what stood before, which each answer gives, and what
 * the call has set. Nothing is read for it.
 *
 *     correct REPORT CORRECTED TEMPERATURE FLAG
 *
 * REPORT is a file, or - for standard input. TEMPERATURE is in tenths of a degree C. FLAG is a letter of R A B J K L M N Q S.
 * The flags are attachment 1 of a report; where it has none, one is put whose other flags are missing.
 */
#include <errno.h>
#include <stdio.h>
#include <stdlib.h>
#include <string.h>

#include "lmr5.h"

/* The flags in the order of their values, from 1. */
static const char letters[] = "RABJKLMNQS";

/* Says a refusal in words, and whether there was one. */
static int is_refused(const char *what, lmr5_answer a)
{
    if (a.refusal == 0)
        return 0;
    fprintf(stderr, "correct: %s: %s", what, lmr5_refusal_name(a.refusal));
    if (a.place != 0)
        fprintf(stderr, " (place %lu)", (unsigned long)a.place);
    fprintf(stderr, "; refusal %lu\n", (unsigned long)a.refusal);
    return 1;
}

/* Every flag is permitted. */
static lmr5_flag_table table;

/* Sets the sea surface temperature. The answer gives what stood before. */
static int set_temperature(uint8_t *report, size_t length, long tenths)
{
    lmr5_answer a = lmr5_set_field(report, length, LMR5_S, tenths, &table);
    if (is_refused("sea surface temperature", a))
        return 0;
    if (lmr5_is_missing(a))
        printf("S: before missing, after %ld\n", tenths);
    else
        printf("S: before %ld, after %ld\n", (long)a.first, tenths);
    return 1;
}

/* Sets the flag of the sea surface temperature. Where the report has no flags, they are put first, all missing. */
static int set_flag(uint8_t *report, size_t length, size_t value)
{
    static const uint8_t none[16] = {0};
    const size_t flag = LMR5_FLAG_SEA_SURFACE_TEMPERATURE;
    lmr5_answer a = lmr5_set_flag(report, length, flag, value, &table);
    if (a.refusal == LMR5_REFUSED_NO_SUCH) {
        a = lmr5_put(report, length, 1, none, sizeof none, &table);
        if (a.refusal == 0)
            a = lmr5_set_flag(report, length, flag, value, &table);
    }
    if (is_refused("flag", a))
        return 0;
    if (lmr5_is_missing(a))
        printf("flag of S: before missing, after %c\n", letters[value - 1]);
    else
        printf("flag of S: before %c, after %c\n", letters[a.first - 1], letters[value - 1]);
    return 1;
}

/* Reads as much of a file as a report may have. */
static int read_report(const char *name, uint8_t *report, size_t *length)
{
    FILE *from = strcmp(name, "-") == 0 ? stdin : fopen(name, "rb");
    if (from == NULL) {
        perror(name);
        return 0;
    }
    *length = fread(report, 1, LMR5_LONGEST_REPORT, from);
    if (ferror(from)) {
        perror(name);
        return 0;
    }
    if (from != stdin)
        fclose(from);
    return 1;
}

static int write_report(const char *name, const uint8_t *report, size_t size)
{
    FILE *to = fopen(name, "wb");
    if (to == NULL || fwrite(report, 1, size, to) != size || fclose(to) != 0) {
        perror(name);
        return 0;
    }
    return 1;
}

/* Room for the longest report. Only the first report of a file is corrected and written. */
static uint8_t buffer[LMR5_LONGEST_REPORT];

int main(int argc, char **argv)
{
    size_t length;
    const char *letter;
    char *end;
    long temperature;
    lmr5_answer a;
    if (argc != 5) {
        fprintf(stderr, "usage: correct REPORT CORRECTED TEMPERATURE FLAG\n");
        return 2;
    }
    errno = 0;
    temperature = strtol(argv[3], &end, 10);
    letter = strlen(argv[4]) == 1 ? strchr(letters, argv[4][0]) : NULL;
    if (end == argv[3] || *end != '\0' || errno != 0 || letter == NULL) {
        fprintf(stderr, "correct: the temperature is a whole number of tenths, the flag a letter of %s\n", letters);
        return 2;
    }
    lmr5_all_flags(&table);
    if (!read_report(argv[1], buffer, &length) || is_refused("report", lmr5_judge(buffer, length, &table)))
        return 1;
    if (!set_temperature(buffer, sizeof buffer, temperature))
        return 1;
    if (!set_flag(buffer, sizeof buffer, (size_t)(letter - letters) + 1))
        return 1;
    a = lmr5_judge(buffer, sizeof buffer, &table);
    if (is_refused("report", a) || !write_report(argv[2], buffer, (size_t)a.first))
        return 1;
    printf("%s: %ld bytes\n", argv[2], (long)a.first);
    return 0;
}
