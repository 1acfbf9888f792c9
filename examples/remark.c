/*
 * Shows the remark of a ship, which is the ship text of the report on standard input.
 *
 *     remark < REPORT
 *
 * A plain symbol is shown as it is. An original one is a byte of the deck, and is shown in hex between < and >, which no plain
 * symbol is: what it stands for is left to someone with the table of the deck's character set, which is named.
 */
#include <stdio.h>

#include "lmr5.h"

/* The name of a character set, by enum lmr5_set. */
static const char *set_name(int64_t set)
{
    switch (set) {
    case LMR5_SET_EBCDIC:
        return "EBCDIC";
    case LMR5_SET_ASCII:
        return "ASCII";
    default:
        return "an unknown character set";
    }
}

/* Says a refusal in words, and whether there was one. */
static int is_refused(lmr5_answer answer)
{
    if (answer.refusal == 0)
        return 0;
    fprintf(stderr, "remark: %s, place %lu\n", lmr5_refusal_name(answer.refusal), (unsigned long)answer.place);
    return 1;
}

/* Every flag is permitted. */
static lmr5_flag_table table;

/* Room for the longest report, and for the longest text with its marks. */
static uint8_t report[LMR5_LONGEST_REPORT];
static uint8_t text[2295], origins[2295];

/* Prints one symbol after the other, each as it comes. The reader is a copy: the caller's stays where it is. */
static void print_symbols(size_t length, lmr5_text_reader reader)
{
    lmr5_symbol symbol = lmr5_next_symbol(report, length, &reader);
    while (symbol.kind != LMR5_SYMBOL_END) {
        if (symbol.kind == LMR5_SYMBOL_ORIGINAL)
            printf("<%02X>", (unsigned)symbol.byte);
        else
            putchar((int)symbol.byte);
        symbol = lmr5_next_symbol(report, length, &reader);
    }
    putchar('\n');
}

int main(void)
{
    size_t length = fread(report, 1, sizeof report, stdin);
    lmr5_text_reader reader = {0, 0, 0, 0, 0};
    lmr5_answer answer;
    lmr5_all_flags(&table);
    answer = lmr5_open_text(report, length, &reader, &table);
    if (answer.refusal == LMR5_REFUSED_NO_SUCH) {
        puts("no remark");
        return 0;
    }
    if (is_refused(answer))
        return 1;
    /* The fetch gives the symbols, the set and the nibbles. */
    answer = lmr5_fetch_text(report, length, text, sizeof text, origins, sizeof origins, &table);
    if (is_refused(answer))
        return 1;
    printf("%ld symbols in %ld nibbles, deck in %s: ", (long)answer.first, (long)answer.third, set_name(answer.second));
    print_symbols(length, reader);
    return 0;
}
