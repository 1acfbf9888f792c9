/*
 * Tries the header's numbers of refusals, flags and flag values on the library: for each refusal a call that has to be
 * refused so, with its words, and the ends of the flags and of their values. Tries what lmr5_is_missing says of answers; the
 * former values that set and clear give, beside what a read gives just before; indicators that have lost their data, in each
 * set of them, and each field cleared with its indicators, beside the clears that it stands for; the table of permitted flags
 * in every call that takes it; ship texts there and back, how many nibbles they take, each refusal of their calls, the deck's
 * set for each source ID, and the reader; the costliest text of each number of symbols; and some entries of the table of the
 * characters. Tries that nothing beside a table, a reader, a costliest text or what is found is written. Says each difference,
 * and fails if there is one.
 */
#include "lmr5.h"

#include <stdio.h>
#include <string.h>

enum { ROOM = 64 };

static uint8_t report[ROOM];
static const uint8_t nibbles[16] = {1, 1, 1, 1, 1, 1, 1, 1, 1, 1, 1, 1, 1, 1, 1, 1};
static const uint8_t zeros[16] = {0};
static lmr5_flag_table all;
static int differences;

static void see_that(const char *what, int holds) {
    if (holds)
        return;
    printf("include/lmr5.h: %s: not so\n", what);
    differences++;
}

/* The words of each refusal; none where the number has none. Which of the numbers calls have answered. */
enum { NUMBERS = LMR5_REFUSED_TABLE + 1 };
static const char *const words[NUMBERS] = {
    [0] = "accepted",
    [LMR5_REFUSED_SHORT] = "the report or an attachment is cut short",
    [LMR5_REFUSED_CODE] = "a code is above the field's highest",
    [LMR5_REFUSED_MISSING] = "a required field is missing",
    [LMR5_REFUSED_CHECKSUM] = "the checksum differs",
    [LMR5_REFUSED_ATTACHMENT] = "an attachment is empty, has id 0 or repeats an id",
    [LMR5_REFUSED_BODY] = "an attachment's flags or ship text are invalid or not permitted",
    [LMR5_REFUSED_PADDING] = "the padding nibble is not 0",
    [LMR5_REFUSED_NUMBER] = "there is no such field, flag or id, or a presence bit is of no field",
    [LMR5_REFUSED_VALUE] = "the value is out of range or not permitted",
    [LMR5_REFUSED_REQUIRED] = "the field is required",
    [LMR5_REFUSED_NO_SUCH] = "there is no such attachment",
    [LMR5_REFUSED_LENGTH] = "the content has no nibble or over 255",
    [LMR5_REFUSED_ROOM] = "a buffer is too short, or a text and its marks differ in length",
    [LMR5_REFUSED_CONTENT] = "the content is invalid or not permitted",
    [LMR5_REFUSED_TABLE] = "the table of flags is invalid"};
static int is_met[NUMBERS];

static void see_name(const char *what, uint32_t refusal, const char *due) {
    const char *const name = lmr5_refusal_name(refusal);
    if (strcmp(name, due) == 0)
        return;
    printf("include/lmr5.h: %s: refusal %u is \"%s\"\n", what, (unsigned)refusal, name);
    differences++;
}

/* The refusal and its place, and its words. What is refused is not missing. */
static void see(const char *what, lmr5_answer answer, uint32_t refusal, uint64_t place) {
    if (answer.refusal != refusal || answer.place != place) {
        printf("include/lmr5.h: %s: refusal %u, place %llu\n", what, (unsigned)answer.refusal,
               (unsigned long long)answer.place);
        differences++;
        return;
    }
    see_name(what, answer.refusal, words[refusal]);
    see_that(what, refusal == 0 || !lmr5_is_missing(answer));
    is_met[refusal] = 1;
}

/* The labels and numbers that are given. Where there are none, all are 0. */
static void see_given(const char *what, lmr5_answer answer, uint32_t given, int64_t first, int64_t second, int64_t third) {
    if (answer.given == given && answer.first == first && answer.second == second && answer.third == third)
        return;
    printf("include/lmr5.h: %s: given %u, numbers %lld, %lld, %lld\n", what, (unsigned)answer.given, (long long)answer.first,
           (long long)answer.second, (long long)answer.third);
    differences++;
}

static void start(void) {
    memset(report, 0, ROOM);
    see("fresh", lmr5_fresh(1, 1900, 1, 0, 0, report, ROOM), 0, 0);
}

/* The fresh report with a byte changed. */
static lmr5_answer with(size_t at, uint8_t clear, uint8_t set) {
    start();
    report[at] = (uint8_t)((report[at] & ~clear) | set);
    return lmr5_judge(report, ROOM, &all);
}

/* The same with an attachment of one nibble, whose id, the low half of byte 38, is changed. */
static lmr5_answer with_id(uint8_t id) {
    start();
    see("put", lmr5_put(report, ROOM, 2, nibbles, 1, &all), 0, 0);
    report[38] = (uint8_t)((report[38] & 0xf0) | id);
    return lmr5_judge(report, ROOM, &all);
}

static void by_the_report(void) {
    start();
    see("37 bytes", lmr5_judge(report, 37, &all), LMR5_REFUSED_SHORT, 0);
    see("month 15", with(4, 0, 0x3c), LMR5_REFUSED_CODE, LMR5_MONTH);
    see("no month", with(4, 0x3c, 0), LMR5_REFUSED_MISSING, LMR5_MONTH);
    see("another checksum", with(36, 0xff, 0xff), LMR5_REFUSED_CHECKSUM, 0);
    see("id 0", with_id(0), LMR5_REFUSED_ATTACHMENT, 1);
    see("one flag", with_id(1), LMR5_REFUSED_BODY, 1);
    see("the padding nibble", with(37, 0, 1), LMR5_REFUSED_PADDING, 0);
}

static void by_an_argument(void) {
    const uint8_t sixteen = 16;
    start();
    see("field 0", lmr5_read_field(report, ROOM, LMR5_BOX10 - 1, &all), LMR5_REFUSED_NUMBER, 0);
    see("field 47", lmr5_read_field(report, ROOM, LMR5_A6 + 1, &all), LMR5_REFUSED_NUMBER, 0);
    see("month 13", lmr5_set_field(report, ROOM, LMR5_MONTH, 13, &all), LMR5_REFUSED_VALUE, LMR5_MONTH);
    see("month cleared", lmr5_clear_field(report, ROOM, LMR5_MONTH, &all), LMR5_REFUSED_REQUIRED, LMR5_MONTH);
    see("dropped where none is", lmr5_drop(report, ROOM, 2, &all), LMR5_REFUSED_NO_SUCH, 0);
    see("no nibbles", lmr5_put(report, ROOM, 2, nibbles, 0, &all), LMR5_REFUSED_LENGTH, 0);
    see("no room", lmr5_put(report, 38, 2, nibbles, 1, &all), LMR5_REFUSED_ROOM, 0);
    see("a nibble of 16", lmr5_put(report, ROOM, 2, &sixteen, 1, &all), LMR5_REFUSED_CONTENT, 0);
}

static void flags(void) {
    const size_t first = LMR5_FLAG_SHIP_POSITION, last = LMR5_FLAG_PRESSURE_TENDENCY;
    const size_t least = LMR5_VALUE_R, most = LMR5_VALUE_S;
    uint8_t body[16] = {0};
    start();
    see("put flags", lmr5_put(report, ROOM, 1, body, 16, &all), 0, 0);
    for (size_t flag = first; flag <= last; flag++)
        for (size_t value = least; value <= most; value++)
            see("a flag set", lmr5_set_flag(report, ROOM, flag, value, &all), 0, 0);
    see("flag 0", lmr5_set_flag(report, ROOM, first - 1, least, &all), LMR5_REFUSED_NUMBER, 0);
    see("flag 15", lmr5_set_flag(report, ROOM, last + 1, least, &all), LMR5_REFUSED_NUMBER, 0);
    see("value 0", lmr5_set_flag(report, ROOM, first, least - 1, &all), LMR5_REFUSED_VALUE, first);
    see("value 11", lmr5_set_flag(report, ROOM, last, most + 1, &all), LMR5_REFUSED_VALUE, last);
}

/* A table between bytes that stay. */
static struct {
    uint8_t before[16];
    lmr5_flag_table table;
    uint8_t behind[16];
} fenced;

static void see_fenced(const char *what, const uint8_t *marks) {
    int stays = 1;
    for (size_t i = 0; i < 16; i++)
        stays = stays && fenced.before[i] == 0xa5 && fenced.behind[i] == 0xa5;
    see_that(what, stays && memcmp(&fenced.table, marks, 140) == 0);
}

/* The marks that are lent: for flag 1 only R, for flag 2 all, for each other flag all but one value. */
static uint8_t lent[141];

static int is_yes(size_t flag, size_t value) {
    return flag == 1 ? value == LMR5_VALUE_R : flag == 2 || value != 3 * flag % 10 + 1;
}

static void lend(void) {
    memset(lent, 1, sizeof lent);
    for (size_t flag = 1; flag <= 14; flag++)
        for (size_t value = 1; value <= 10; value++)
            lent[10 * (flag - 1) + value - 1] = (uint8_t)is_yes(flag, value);
}

/* The former table stays. What was changed of the lent one is as before. */
static void see_load_refused(const char *what, const uint8_t *marks, size_t length) {
    see(what, lmr5_load_flags(marks, length, &fenced.table), LMR5_REFUSED_TABLE, 0);
    lend();
    see_fenced(what, lent);
}

/* Makes both kinds of table. The loaded one is left in the fenced. */
static void tables(void) {
    lmr5_answer answer;
    see_that("a table of 140 bytes", sizeof(lmr5_flag_table) == 140);
    memset(&fenced, 0xa5, sizeof fenced);
    memset(lent, 1, sizeof lent);
    lmr5_all_flags(&fenced.table);
    see_fenced("the table of all flags", lent);
    lend();
    answer = lmr5_load_flags(lent, 140, &fenced.table);
    see("a table", answer, 0, 0);
    see_that("a load gives nothing", answer.given == LMR5_GIVEN_NOTHING);
    see_fenced("the loaded table", lent);
    see_that("row after row", fenced.table.marks[0][1] == 0 && fenced.table.marks[1][0] == 1 && fenced.table.marks[13][2] == 0);
    see_load_refused("no marks", NULL, 0);
    lent[1] = 1;
    see_load_refused("139 marks", lent, 139);
    lent[1] = 1;
    see_load_refused("141 marks", lent, 141);
    lent[1] = 2;
    see_load_refused("a second mark of 2", lent, 140);
    lent[139] = 255;
    see_load_refused("a last mark of 255", lent, 140);
    memset(lent, 0, 10);
    see_load_refused("a first row without a yes", lent, 140);
    memset(lent + 130, 0, 10);
    see_load_refused("a last row without a yes", lent, 140);
}

/* The fresh report with an attachment of one nibble, and flags behind it, which are missing. */
static void start_flags(const lmr5_flag_table *table) {
    start();
    see("put", lmr5_put(report, ROOM, 5, nibbles, 1, table), 0, 0);
    see("put missing flags", lmr5_put(report, ROOM, 1, zeros, 16, table), 0, 0);
}

static void see_set(size_t flag, size_t value, const lmr5_flag_table *table, int yes) {
    lmr5_answer answer;
    start_flags(table);
    answer = lmr5_set_flag(report, ROOM, flag, value, table);
    if (yes)
        see("a permitted flag", answer, 0, 0);
    else
        see("a flag not permitted", answer, LMR5_REFUSED_VALUE, flag);
}

/* The report with flag 1 at A. A call that is refused for it changes nothing. */
static uint8_t other[ROOM];

static void see_other(const char *what, lmr5_answer answer) {
    see(what, answer, LMR5_REFUSED_BODY, 2);
    see_that(what, memcmp(report, other, ROOM) == 0);
}

static int is_filled(const void *buffer, size_t length) {
    const uint8_t *bytes = buffer;
    for (size_t i = 0; i < length; i++)
        if (bytes[i] != 0xa5)
            return 0;
    return 1;
}

static int is_end(lmr5_symbol symbol) {
    return symbol.kind == LMR5_SYMBOL_END && symbol.byte == 0;
}

/* It gives only the end, and stays as it is. */
static void see_ended(const char *what, lmr5_text_reader reader) {
    const lmr5_text_reader before = reader;
    for (int i = 0; i < 3; i++) {
        see_that(what, is_end(lmr5_next_symbol(report, ROOM, &reader)));
        see_that(what, memcmp(&reader, &before, sizeof reader) == 0);
    }
}

static void see_refused_reader(const char *what, lmr5_text_reader reader, uint64_t refusal, uint64_t place) {
    see_that(what, reader.refusal == refusal && reader.refusal_place == place);
    see_ended(what, reader);
}

/* Made under all flags, and refused under the other table by every call, a replayed one too. */
static void in_every_call(const lmr5_flag_table *own) {
    const uint8_t script[9] = {LMR5_SCRIPT_DROP, 0, 0, 0, 0, 0, 0, 0, 1};
    uint8_t tail[ROOM], out[ROOM], log[37] = {0};
    int64_t values[46];
    uint64_t contents[6];
    lmr5_performed performed;
    lmr5_text_reader reader;
    memset(&reader, 0xa5, sizeof reader);
    memset(tail, 0xa5, sizeof tail);
    memset(out, 0xa5, sizeof out);
    memset(values, 0xa5, sizeof values);
    memset(contents, 0xa5, sizeof contents);
    start_flags(&all);
    see("flag 1 at A", lmr5_set_flag(report, ROOM, 1, LMR5_VALUE_A, &all), 0, 0);
    memcpy(other, report, ROOM);
    see_other("judged", lmr5_judge(report, ROOM, own));
    see_other("unpacked", lmr5_unpack(report, ROOM, values, 46, tail, ROOM, contents, own));
    see_that("values as they were", is_filled(values, sizeof values));
    see_that("a tail as it was", is_filled(tail, sizeof tail));
    see_that("contents as they were", is_filled(contents, sizeof contents));
    see_other("a field read", lmr5_read_field(report, ROOM, LMR5_MONTH, own));
    see_other("a field set", lmr5_set_field(report, ROOM, LMR5_MONTH, 2, own));
    see_other("a field cleared", lmr5_clear_field(report, ROOM, LMR5_S, own));
    see_other("a field cleared with its indicators", lmr5_clear_with_indicators(report, ROOM, LMR5_S, own));
    see_other("indicators found", lmr5_find_indicators(report, ROOM, out, ROOM, own));
    see_other("another flag read", lmr5_read_flag(report, ROOM, 2, own));
    see_other("the flag set", lmr5_set_flag(report, ROOM, 1, LMR5_VALUE_R, own));
    see_other("the flag cleared", lmr5_clear_flag(report, ROOM, 1, own));
    see_other("another attachment put", lmr5_put(report, ROOM, 5, nibbles, 2, own));
    see_other("another attachment fetched", lmr5_fetch(report, ROOM, 5, out, ROOM, own));
    see_other("the flags dropped", lmr5_drop(report, ROOM, 1, own));
    see_other("a text put", lmr5_put_text(report, ROOM, nibbles, 1, nibbles, 1, own));
    see_other("a text fetched", lmr5_fetch_text(report, ROOM, out, ROOM, tail, ROOM, own));
    see_that("nothing fetched", is_filled(out, sizeof out) && is_filled(tail, sizeof tail));
    see_other("a reader opened", lmr5_open_text(report, ROOM, &reader, own));
    see_refused_reader("the reader", reader, LMR5_REFUSED_BODY, 2);
    performed = lmr5_replay(report, ROOM, script, 9, log, 37, own);
    see_that("a call replayed", performed.calls == 1 && memcmp(report, other, ROOM) == 0);
    see_that("its record", log[0] == LMR5_LOG_REFUSED && log[1] == LMR5_REFUSED_BODY && log[9] == 2);
    see("unpacked under all flags", lmr5_unpack(report, ROOM, values, 46, tail, ROOM, contents, &all), 0, 0);
    see("packed", lmr5_pack(values, 46, contents[0], 0, tail, contents[5], out, ROOM, own), LMR5_REFUSED_BODY, 2);
    see_that("nothing packed", is_filled(out, sizeof out));
    see("packed under all flags", lmr5_pack(values, 46, contents[0], 0, tail, contents[5], out, ROOM, &all), 0, 0);
    performed = lmr5_replay(report, ROOM, script, 9, log, 37, &all);
    see_that("replayed under all flags", performed.calls == 1 && log[0] == LMR5_LOG_ACCEPTED);
}

/* Tables with this number for no, some of which no load gives. */
static void marked(uint8_t no) {
    lmr5_flag_table table = all;
    table.marks[0][0] = no;
    table.marks[13][9] = no;
    see_set(1, LMR5_VALUE_R, &table, 0);
    see_set(1, LMR5_VALUE_A, &table, 1);
    see_set(14, LMR5_VALUE_Q, &table, 1);
    see_set(14, LMR5_VALUE_S, &table, 0);
    see_set(14, LMR5_VALUE_S, &all, 1);
    see("flag 14 at S", lmr5_judge(report, ROOM, &table), LMR5_REFUSED_BODY, 2);
    memset(&table, no, sizeof table);
    start_flags(&table);
    see("missing flags", lmr5_judge(report, ROOM, &table), 0, 0);
    see("a flag cleared", lmr5_clear_flag(report, ROOM, 14, &table), 0, 0);
    see_that("it is missing", lmr5_read_flag(report, ROOM, 14, &table).given == LMR5_GIVEN_FLAG + LMR5_GIVEN_MISSING);
}

static void own_flags(void) {
    const lmr5_flag_table *own = &fenced.table;
    uint8_t body[16] = {LMR5_VALUE_A, 0, 0, 0, 0, 0, 0, 0, 0, 0, 0, 0, 0, 0, 0, 2};
    for (size_t flag = 1; flag <= 14; flag++)
        for (size_t value = 1; value <= 10; value++)
            see_set(flag, value, own, is_yes(flag, value));
    in_every_call(own);
    start();
    see("flag 15", lmr5_set_flag(report, ROOM, 15, LMR5_VALUE_A, own), LMR5_REFUSED_NUMBER, 0);
    see("not permitted, without flags", lmr5_set_flag(report, ROOM, 1, LMR5_VALUE_A, own), LMR5_REFUSED_VALUE, 1);
    see("permitted, without flags", lmr5_set_flag(report, ROOM, 1, LMR5_VALUE_R, own), LMR5_REFUSED_NO_SUCH, 0);
    see("flags put, one not permitted", lmr5_put(report, ROOM, 1, body, 16, own), LMR5_REFUSED_CONTENT, 0);
    see("the same under all flags", lmr5_put(report, ROOM, 1, body, 16, &all), 0, 0);
    start();
    body[0] = LMR5_VALUE_R;
    body[15] = 1;
    see("permitted flags put", lmr5_put(report, ROOM, 1, body, 16, own), 0, 0);
    marked(0);
    marked(2);
    marked(255);
    see_fenced("the loaded table after all calls", lent);
}

/* A text of all that a symbol can be, with two spaces at its end, which are dropped; and the length of a longer output. */
enum { SYMBOLS = 9, PUT = SYMBOLS + 2, LONG = 14 };
enum { PLAIN = LMR5_ORIGIN_PLAIN, ORIGINAL = LMR5_ORIGIN_ORIGINAL };
static const uint8_t text[PUT] = {'A', 'A', ' ', ' ', ' ', '1', 'a', 0, 255, ' ', ' '};
static const uint8_t marks[PUT] = {PLAIN,    ORIGINAL, PLAIN,    PLAIN, ORIGINAL, PLAIN,
                                   ORIGINAL, ORIGINAL, ORIGINAL, PLAIN, PLAIN};
static const uint8_t text_nibbles[20] = {12, 1, 15, 4, 1, 10, 10, 15, 2, 0, 1, 15, 6, 1, 15, 0, 0, 15, 15, 15};

static void start_text(void) {
    lmr5_answer answer;
    start();
    answer = lmr5_put_text(report, ROOM, text, PUT, marks, PUT, &all);
    see("a text", answer, 0, 0);
    see_given("a text", answer, LMR5_GIVEN_NIBBLES, sizeof text_nibbles, 0, 0);
}

/* A put that is refused changes nothing. */
static void see_no_text(const char *what, size_t room, const uint8_t *bytes, size_t length, const uint8_t *origins,
                        size_t origins_length, uint32_t refusal) {
    lmr5_answer answer;
    memcpy(other, report, ROOM);
    answer = lmr5_put_text(report, room, bytes, length, origins, origins_length, &all);
    see(what, answer, refusal, 0);
    see_given(what, answer, LMR5_GIVEN_NOTHING, 0, 0, 0);
    see_that(what, memcmp(report, other, ROOM) == 0);
}

static void texts_refused(void) {
    const uint8_t lower = 'a', capital = 'A', space = ' ';
    const uint8_t two = 2, most = 255;
    uint8_t long_text[87], long_marks[87];
    memset(long_text, 0, sizeof long_text);
    memset(long_marks, ORIGINAL, sizeof long_marks);
    start();
    see_no_text("fewer marks", ROOM, text, 3, marks, 2, LMR5_REFUSED_ROOM);
    see_no_text("more marks", ROOM, text, 2, marks, 3, LMR5_REFUSED_ROOM);
    see_no_text("no marks", ROOM, text, 1, NULL, 0, LMR5_REFUSED_ROOM);
    see_no_text("no bytes", ROOM, NULL, 0, marks, 1, LMR5_REFUSED_ROOM);
    see_no_text("fewer marks, and no symbols", ROOM, long_text, 87, &most, 1, LMR5_REFUSED_ROOM);
    see_no_text("a plain a", ROOM, &lower, 1, zeros, 1, LMR5_REFUSED_CONTENT);
    see_no_text("a mark of 2", ROOM, &capital, 1, &two, 1, LMR5_REFUSED_CONTENT);
    see_no_text("a mark of 255", ROOM, &capital, 1, &most, 1, LMR5_REFUSED_CONTENT);
    see_no_text("a space with a mark of 2", ROOM, &space, 1, &two, 1, LMR5_REFUSED_CONTENT);
    long_marks[86] = PLAIN;
    see_no_text("a plain 0 behind 86 originals", ROOM, long_text, 87, long_marks, 87, LMR5_REFUSED_CONTENT);
    see_no_text("86 originals", ROOM, long_text, 86, long_marks, 86, LMR5_REFUSED_LENGTH);
    see_no_text("86 originals, no room", 38, long_text, 86, long_marks, 86, LMR5_REFUSED_LENGTH);
    see_no_text("85 originals, no room", ROOM, long_text, 85, long_marks, 85, LMR5_REFUSED_ROOM);
    see_no_text("no text", ROOM, NULL, 0, NULL, 0, LMR5_REFUSED_LENGTH);
    see_no_text("a space", ROOM, &space, 1, zeros, 1, LMR5_REFUSED_LENGTH);
    see_no_text("A, no room", 39, &capital, 1, zeros, 1, LMR5_REFUSED_ROOM);
    see("A", lmr5_put_text(report, 40, &capital, 1, zeros, 1, &all), 0, 0);
    start();
    see("an original space", lmr5_put_text(report, ROOM, &space, 1, nibbles, 1, &all), 0, 0);
}

/* A fetch that is refused writes neither output. */
static void see_not_fetched(const char *what, size_t length, size_t origins_length, uint32_t refusal) {
    uint8_t out[LONG], origins[LONG];
    lmr5_answer answer;
    memset(out, 0xa5, sizeof out);
    memset(origins, 0xa5, sizeof origins);
    answer = lmr5_fetch_text(report, ROOM, out, length, origins, origins_length, &all);
    see(what, answer, refusal, 0);
    see_given(what, answer, LMR5_GIVEN_NOTHING, 0, 0, 0);
    see_that(what, is_filled(out, sizeof out) && is_filled(origins, sizeof origins));
}

/* The labels of what a fetch of a text gives: symbols, set and nibbles. */
enum { FETCHED = LMR5_GIVEN_COUNT + 256 * LMR5_GIVEN_DECK + 65536 * LMR5_GIVEN_NIBBLES };

/* What the text comes to in two outputs of these lengths. */
static void see_fetched(const char *what, size_t length, size_t origins_length, int64_t set) {
    uint8_t out[LONG], origins[LONG];
    lmr5_answer answer;
    memset(out, 0xa5, sizeof out);
    memset(origins, 0xa5, sizeof origins);
    answer = lmr5_fetch_text(report, ROOM, out, length, origins, origins_length, &all);
    see(what, answer, 0, 0);
    see_given(what, answer, FETCHED, SYMBOLS, set, sizeof text_nibbles);
    see_that(what, memcmp(out, text, SYMBOLS) == 0 && is_filled(out + SYMBOLS, LONG - SYMBOLS));
    see_that(what, memcmp(origins, marks, SYMBOLS) == 0 && is_filled(origins + SYMBOLS, LONG - SYMBOLS));
}

static void texts_fetched(void) {
    uint8_t out[sizeof text_nibbles];
    lmr5_answer answer;
    start();
    see_not_fetched("no text", LONG, LONG, LMR5_REFUSED_NO_SUCH);
    see_not_fetched("no text, no outputs", 0, 0, LMR5_REFUSED_NO_SUCH);
    start_text();
    answer = lmr5_fetch(report, ROOM, 4, out, sizeof out, &all);
    see("its nibbles", answer, 0, 0);
    see_that("its nibbles", answer.first == sizeof out && memcmp(out, text_nibbles, sizeof out) == 0);
    see_not_fetched("a first output too short", SYMBOLS - 1, LONG, LMR5_REFUSED_ROOM);
    see_not_fetched("a second output too short", LONG, SYMBOLS - 1, LMR5_REFUSED_ROOM);
    see_not_fetched("both outputs too short", 0, 0, LMR5_REFUSED_ROOM);
    see_fetched("outputs of the text's length", SYMBOLS, SYMBOLS, LMR5_SET_UNKNOWN);
    see_fetched("longer outputs", LONG, LONG - 1, LMR5_SET_UNKNOWN);
    start();
    answer = lmr5_put(report, ROOM, 4, text_nibbles, sizeof text_nibbles, &all);
    see("a text put by its nibbles", answer, 0, 0);
    see_given("a text put by its nibbles", answer, LMR5_GIVEN_NOTHING, 0, 0, 0);
    see_fetched("a text put by its nibbles", LONG, LONG, LMR5_SET_UNKNOWN);
}

/* The most symbols of a costliest text, the length of a longer output, and room for a report with 255 nibbles of text. */
enum { MOST = 85, LONGER = MOST + 9, LONG_ROOM = 200 };

/* Puts a text to a report of one other nibble and fetches it again: so many nibbles are written, and read. */
static void see_nibbles(const char *what, const uint8_t *bytes, const uint8_t *origins, size_t symbols, int64_t due) {
    uint8_t roomy[LONG_ROOM] = {0}, out[LONGER] = {0}, out_origins[LONGER] = {0};
    lmr5_answer answer;
    see(what, lmr5_fresh(1, 1900, 1, 0, 0, roomy, LONG_ROOM), 0, 0);
    see(what, lmr5_put(roomy, LONG_ROOM, 2, nibbles, 1, &all), 0, 0);
    answer = lmr5_put_text(roomy, LONG_ROOM, bytes, symbols, origins, symbols, &all);
    see(what, answer, 0, 0);
    see_given(what, answer, LMR5_GIVEN_NIBBLES, due, 0, 0);
    see_that(what, lmr5_judge(roomy, LONG_ROOM, &all).first == (75 + 3 + 1 + 3 + due + 1) / 2);
    answer = lmr5_fetch_text(roomy, LONG_ROOM, out, LONGER, out_origins, LONGER, &all);
    see(what, answer, 0, 0);
    see_given(what, answer, FETCHED, (int64_t)symbols, LMR5_SET_UNKNOWN, due);
    see_that(what, memcmp(out, bytes, symbols) == 0 && memcmp(out_origins, origins, symbols) == 0);
}

/* Two nibbles for each 18 spaces; of the rest one each for one or two, and two for more. */
static int64_t nibbles_of_spaces(size_t spaces) {
    const size_t rest = spaces % 18;
    return (int64_t)(2 * (spaces / 18) + (rest < 2 ? rest : 2));
}

/* Texts of 1 to 85 symbols, each kind by itself: none is refused for its length. */
static void counts(void) {
    const uint8_t spaces[3] = {'A', ' ', ' '};
    uint8_t bytes[MOST], plain[MOST], original[MOST];
    lmr5_answer answer;
    memset(plain, PLAIN, MOST);
    memset(original, ORIGINAL, MOST);
    for (size_t n = 1; n <= MOST; n++) {
        memset(bytes, '7', MOST);
        see_nibbles("digits", bytes, plain, n, (int64_t)n);
        see_nibbles("original digits", bytes, original, n, 3 * (int64_t)n);
        memset(bytes, 'Z', MOST);
        see_nibbles("letters", bytes, plain, n, 2 * (int64_t)n);
        memset(bytes, ' ', MOST);
        see_nibbles("original spaces", bytes, original, n, 3 * (int64_t)n);
        bytes[n - 1] = '7';
        see_nibbles("spaces and a digit", bytes, plain, n, nibbles_of_spaces(n - 1) + 1);
        original[n - 1] = PLAIN;
        see_nibbles("originals and a digit", bytes, original, n, 3 * (int64_t)n - 2);
        original[n - 1] = ORIGINAL;
    }
    start_text();
    answer = lmr5_put_text(report, ROOM, spaces, 3, plain, 3, &all);
    see("a shorter text, with spaces at its end", answer, 0, 0);
    see_given("a shorter text, with spaces at its end", answer, LMR5_GIVEN_NIBBLES, 2, 0, 0);
}

/* Two outputs for a costliest text, filled anew by each call. */
static uint8_t costly[LONGER], costly_origins[LONGER];

static lmr5_answer costliest(size_t symbols, size_t length, size_t origins_length) {
    memset(costly, 0xa5, sizeof costly);
    memset(costly_origins, 0xa5, sizeof costly_origins);
    return lmr5_costliest_text(symbols, costly, length, costly_origins, origins_length);
}

/* It writes neither output. */
static void see_no_costliest(const char *what, size_t symbols, size_t length, size_t origins_length, uint32_t refusal) {
    const lmr5_answer answer = costliest(symbols, length, origins_length);
    see(what, answer, refusal, 0);
    see_given(what, answer, LMR5_GIVEN_NOTHING, 0, 0, 0);
    see_that(what, is_filled(costly, LONGER) && is_filled(costly_origins, LONGER));
}

/* All marks are original, and the rest of both outputs stays. */
static void see_costliest(const char *what, size_t symbols, size_t length, size_t origins_length) {
    const lmr5_answer answer = costliest(symbols, length, origins_length);
    see(what, answer, 0, 0);
    see_given(what, answer, LMR5_GIVEN_NOTHING, 0, 0, 0);
    for (size_t i = 0; i < symbols; i++)
        see_that(what, costly_origins[i] == ORIGINAL);
    see_that(what, is_filled(costly + symbols, LONGER - symbols) && is_filled(costly_origins + symbols, LONGER - symbols));
    if (symbols == 0)
        see_no_text(what, ROOM, costly, 0, costly_origins, 0, LMR5_REFUSED_LENGTH);
    else
        see_nibbles(what, costly, costly_origins, symbols, 3 * (int64_t)symbols);
}

static void costliest_texts(void) {
    const size_t too_many[8] = {MOST + 1, 128, 255, 256, 256 + MOST, SIZE_MAX / 2 + 1, SIZE_MAX / 2 + 1 + MOST, SIZE_MAX};
    start();
    for (size_t n = 0; n <= MOST; n++) {
        see_costliest("outputs of its length", n, n, n);
        see_costliest("a longer first output", n, n + 1, n);
        see_costliest("a longer second output", n, n, n + 1);
        see_costliest("longer outputs", n, LONGER, LONGER - 1);
    }
    for (size_t n = 1; n <= MOST; n++) {
        see_no_costliest("a first output too short", n, n - 1, n, LMR5_REFUSED_ROOM);
        see_no_costliest("a second output too short", n, n, n - 1, LMR5_REFUSED_ROOM);
        see_no_costliest("both outputs too short", n, n - 1, n - 1, LMR5_REFUSED_ROOM);
        see_no_costliest("no outputs", n, 0, 0, LMR5_REFUSED_ROOM);
    }
    for (size_t i = 0; i < 8; i++) {
        see_no_costliest("too many symbols", too_many[i], LONGER, LONGER, LMR5_REFUSED_VALUE);
        see_no_costliest("too many symbols, no first output", too_many[i], 0, LONGER, LMR5_REFUSED_VALUE);
        see_no_costliest("too many symbols, no second output", too_many[i], LONGER, 0, LMR5_REFUSED_VALUE);
    }
    see("no symbols, no outputs", lmr5_costliest_text(0, NULL, 0, NULL, 0), 0, 0);
    see("a symbol, no outputs", lmr5_costliest_text(1, NULL, 0, NULL, 0), LMR5_REFUSED_ROOM, 0);
    see("86 symbols, no outputs", lmr5_costliest_text(MOST + 1, NULL, 0, NULL, 0), LMR5_REFUSED_VALUE, 0);
}

static int64_t set_of(int64_t sid) {
    if (sid == 4 || sid == 18)
        return LMR5_SET_ASCII;
    return sid == 0 || sid == 22 || sid > 24 ? LMR5_SET_UNKNOWN : LMR5_SET_EBCDIC;
}

static void sets(void) {
    start_text();
    for (int64_t sid = 0; sid <= 254; sid++) {
        see("SID set", lmr5_set_field(report, ROOM, LMR5_SID, sid, &all), 0, 0);
        see_fetched("a text of this SID", LONG, LONG, set_of(sid));
    }
    see("SID 18", lmr5_set_field(report, ROOM, LMR5_SID, 18, &all), 0, 0);
    see("SID cleared", lmr5_clear_field(report, ROOM, LMR5_SID, &all), 0, 0);
    see_fetched("a text without SID", LONG, LONG, LMR5_SET_UNKNOWN);
}

/* A reader between bytes that stay. */
static struct {
    uint8_t before[16];
    lmr5_text_reader reader;
    uint8_t behind[16];
} fenced_reader;

static lmr5_answer open_fenced(size_t length) {
    memset(&fenced_reader, 0xa5, sizeof fenced_reader);
    return lmr5_open_text(report, length, &fenced_reader.reader, &all);
}

static void see_reader_fence(const char *what) {
    see_that(what, is_filled(fenced_reader.before, 16) && is_filled(fenced_reader.behind, 16));
}

/* It gives the symbols from this one on, and then the end. */
static void see_read_out(const char *what, lmr5_text_reader *reader, size_t from) {
    for (size_t i = from; i < SYMBOLS; i++) {
        const lmr5_symbol symbol = lmr5_next_symbol(report, ROOM, reader);
        const uint32_t kind = marks[i] == ORIGINAL ? LMR5_SYMBOL_ORIGINAL : LMR5_SYMBOL_PLAIN;
        see_that(what, symbol.kind == kind && symbol.byte == text[i]);
    }
    see_ended(what, *reader);
}

static void readers(void) {
    lmr5_text_reader copies[SYMBOLS];
    lmr5_answer answer;
    start();
    see("opened without a text", open_fenced(ROOM), LMR5_REFUSED_NO_SUCH, 0);
    see_refused_reader("opened without a text", fenced_reader.reader, LMR5_REFUSED_NO_SUCH, 0);
    see_reader_fence("beside a refused reader");
    start_text();
    see("opened on 37 bytes", open_fenced(37), LMR5_REFUSED_SHORT, 0);
    see_refused_reader("opened on 37 bytes", fenced_reader.reader, LMR5_REFUSED_SHORT, 0);
    see("opened on a text that is cut", open_fenced(40), LMR5_REFUSED_SHORT, 1);
    see_refused_reader("opened on a text that is cut", fenced_reader.reader, LMR5_REFUSED_SHORT, 1);
    memcpy(other, report, ROOM);
    answer = open_fenced(ROOM);
    see("opened", answer, 0, 0);
    see_that("an opening gives nothing", answer.given == LMR5_GIVEN_NOTHING);
    see_that("a reader without a refusal", fenced_reader.reader.refusal == 0 && fenced_reader.reader.refusal_place == 0);
    for (size_t i = 0; i < SYMBOLS; i++) {
        copies[i] = fenced_reader.reader;
        lmr5_next_symbol(report, ROOM, &fenced_reader.reader);
    }
    see_ended("a reader at its end", fenced_reader.reader);
    for (size_t i = 0; i < SYMBOLS; i++)
        see_read_out("a copy of a reader", &copies[i], i);
    see_reader_fence("beside a reader");
    see_that("a report read out", memcmp(report, other, ROOM) == 0);
}

/* Numbers that no opening gives. */
static void forged_readers(void) {
    static const uint64_t numbers[8] = {0, 1, 75, 78, 2 * ROOM - 1, 2 * ROOM, UINT64_MAX - 1, UINT64_MAX};
    start_text();
    memcpy(other, report, ROOM);
    for (size_t i = 0; i < 8 * 8 * 8; i++) {
        const lmr5_text_reader forged = {numbers[i % 8], numbers[i / 8 % 8], numbers[i / 64], numbers[i % 8], numbers[i % 8]};
        lmr5_text_reader reader = forged;
        const lmr5_symbol symbol = lmr5_next_symbol(report, ROOM, &reader);
        see_that("a kind of symbol", symbol.kind <= LMR5_SYMBOL_ORIGINAL && symbol.byte <= 255);
        see_that("the end of a forged reader", symbol.kind != LMR5_SYMBOL_END || symbol.byte == 0);
        see_that("a forged reader at its end", !is_end(symbol) || memcmp(&reader, &forged, sizeof reader) == 0);
        see_that("a forged refusal", reader.refusal == forged.refusal && reader.refusal_place == forged.refusal_place);
        reader = forged;
        reader.spaces = 0;
        see_that("on no bytes", is_end(lmr5_next_symbol(NULL, 0, &reader)));
        see_that("a report of forged readers", memcmp(report, other, ROOM) == 0);
    }
}

/* A text put and fetched by a script, with one byte more in the first output; then one that is refused. */
static void replayed_texts(void) {
    const uint8_t script[62] = {
        LMR5_SCRIPT_PUT_TEXT,   0, 0, 0, 0, 0, 0, 0, 2, 'A', 'a',  0, 0, 0, 0, 0, 0, 0, 2, PLAIN, ORIGINAL,
        LMR5_SCRIPT_FETCH_TEXT, 0, 0, 0, 0, 0, 0, 0, 3, 7,   7, 7, 0, 0, 0, 0, 0, 0, 0, 2, 8, 8,
        LMR5_SCRIPT_PUT_TEXT,   0, 0, 0, 0, 0, 0, 0, 1, 'a', 0, 0, 0, 0, 0, 0, 0, 1, PLAIN};
    const uint8_t due[116] = {
        LMR5_LOG_ACCEPTED, 0, 0, 0, 0, 0, 0, 0, 0, 0,
        LMR5_GIVEN_NIBBLES, 0, 0, 0, 0, 0, 0, 0, 5,
        0, 0, 0, 0, 0, 0, 0, 0, 0,
        0, 0, 0, 0, 0, 0, 0, 0, 0,
        LMR5_LOG_ACCEPTED, 0, 0, 0, 0, 0, 0, 0, 0, 0,
        LMR5_GIVEN_COUNT, 0, 0, 0, 0, 0, 0, 0, 2,
        LMR5_GIVEN_DECK, 0, 0, 0, 0, 0, 0, 0, LMR5_SET_EBCDIC,
        LMR5_GIVEN_NIBBLES, 0, 0, 0, 0, 0, 0, 0, 5,
        'A', 'a', 7, PLAIN, ORIGINAL,
        LMR5_LOG_REFUSED, LMR5_REFUSED_CONTENT, 0, 0, 0, 0, 0, 0, 0, 0,
        0, 0, 0, 0, 0, 0, 0, 0, 0,
        0, 0, 0, 0, 0, 0, 0, 0, 0,
        0, 0, 0, 0, 0, 0, 0, 0, 0};
    uint8_t log[sizeof due];
    lmr5_performed performed;
    memset(log, 0xa5, sizeof log);
    start();
    see("SID 23", lmr5_set_field(report, ROOM, LMR5_SID, 23, &all), 0, 0);
    performed = lmr5_replay(report, ROOM, script, sizeof script, log, sizeof log, &all);
    see_that("texts replayed", performed.calls == 3 && performed.taken == sizeof script && performed.written == sizeof log);
    see_that("their records", memcmp(log, due, sizeof due) == 0);
}

/* An accepted set or clear gives what the read gave just before. */
static void see_as_read(const char *what, lmr5_answer answer, lmr5_answer read) {
    see(what, answer, 0, 0);
    see_given(what, answer, read.given, read.first, read.second, read.third);
}

static lmr5_answer read_field(size_t field) {
    return lmr5_read_field(report, ROOM, field, &all);
}

static lmr5_answer read_flag(size_t flag) {
    return lmr5_read_flag(report, ROOM, flag, &all);
}

static const uint32_t no_value = LMR5_GIVEN_VALUE + LMR5_GIVEN_MISSING;
static const uint32_t no_flag = LMR5_GIVEN_FLAG + LMR5_GIVEN_MISSING;

/* Every field with 1, which all but YEAR, VB and P may have; these three with 1900, 90 and 10000. */
static int64_t some_value(size_t field) {
    return field == LMR5_YEAR ? 1900 : field == LMR5_VB ? 90 : field == LMR5_P ? 10000 : 1;
}

static void former_values(void) {
    lmr5_answer read;
    start();
    see_given("S set over missing", lmr5_set_field(report, ROOM, LMR5_S, 286, &all), no_value, 0, 0, 0);
    see_given("S set over 286", lmr5_set_field(report, ROOM, LMR5_S, -999, &all), LMR5_GIVEN_VALUE, 286, 0, 0);
    see_given("S refused", lmr5_set_field(report, ROOM, LMR5_S, -1000, &all), LMR5_GIVEN_NOTHING, 0, 0, 0);
    see_given("S cleared", lmr5_clear_field(report, ROOM, LMR5_S, &all), LMR5_GIVEN_VALUE, -999, 0, 0);
    see_given("S cleared again", lmr5_clear_field(report, ROOM, LMR5_S, &all), no_value, 0, 0, 0);
    see_given("X set over 0", lmr5_set_field(report, ROOM, LMR5_X, 5, &all), LMR5_GIVEN_VALUE, 0, 0, 0);
    see_given("MONTH refused", lmr5_clear_field(report, ROOM, LMR5_MONTH, &all), LMR5_GIVEN_NOTHING, 0, 0, 0);
    for (size_t field = LMR5_BOX10; field <= LMR5_A6; field++) {
        read = read_field(field);
        see_as_read("a field set", lmr5_set_field(report, ROOM, field, some_value(field), &all), read);
        see_given("a field set again", lmr5_set_field(report, ROOM, field, some_value(field), &all), LMR5_GIVEN_VALUE,
                  some_value(field), 0, 0);
    }
    for (size_t field = LMR5_XYI; field <= LMR5_A6; field++) {
        see_given("a field cleared", lmr5_clear_field(report, ROOM, field, &all), LMR5_GIVEN_VALUE, some_value(field), 0, 0);
        read = read_field(field);
        see_as_read("a field cleared again", lmr5_clear_field(report, ROOM, field, &all), read);
    }
}

/* What is missing is given as 0, which a value may be too. */
static void see_missing(const char *what, lmr5_answer answer, int64_t first) {
    see_that(what, lmr5_is_missing(answer) && answer.first == first);
}

static void see_not_missing(const char *what, lmr5_answer answer, int64_t first) {
    see_that(what, !lmr5_is_missing(answer) && answer.first == first);
}

static void missing(void) {
    const size_t flag = LMR5_FLAG_SEA_SURFACE_TEMPERATURE;
    uint8_t out[ROOM] = {0}, origins[ROOM] = {0};
    lmr5_answer answer;
    start();
    see_missing("S, which is missing", read_field(LMR5_S), 0);
    see_missing("S set over missing", lmr5_set_field(report, ROOM, LMR5_S, 0, &all), 0);
    see_not_missing("S at 0", read_field(LMR5_S), 0);
    see_not_missing("S set over 0", lmr5_set_field(report, ROOM, LMR5_S, -5, &all), 0);
    see_not_missing("S at -5", read_field(LMR5_S), -5);
    see_not_missing("S refused", lmr5_set_field(report, ROOM, LMR5_S, 1000, &all), 0);
    see_not_missing("S cleared", lmr5_clear_field(report, ROOM, LMR5_S, &all), -5);
    see_missing("S cleared again", lmr5_clear_field(report, ROOM, LMR5_S, &all), 0);
    see_missing("S cleared with its indicators", lmr5_clear_with_indicators(report, ROOM, LMR5_S, &all), 0);
    see_not_missing("no indicators", lmr5_find_indicators(report, ROOM, NULL, 0, &all), 0);
    see_not_missing("no such field", read_field(LMR5_A6 + 1), 0);
    see_not_missing("no flags", read_flag(flag), 0);
    see_not_missing("a put, which gives nothing", lmr5_put(report, ROOM, 1, zeros, 16, &all), 0);
    see_missing("a flag, which is missing", read_flag(flag), 0);
    see_missing("a flag set over missing", lmr5_set_flag(report, ROOM, flag, LMR5_VALUE_S, &all), 0);
    see_not_missing("a flag at S", read_flag(flag), LMR5_VALUE_S);
    see_not_missing("a size", lmr5_judge(report, ROOM, &all), 38 + 9);
    start_text();
    answer = lmr5_fetch_text(report, ROOM, out, ROOM, origins, ROOM, &all);
    see_not_missing("three numbers", answer, SYMBOLS);
    answer.given += 256 * LMR5_GIVEN_MISSING + 65536 * LMR5_GIVEN_MISSING;
    see_not_missing("three numbers, the first alone not missing", answer, SYMBOLS);
}

/* Every refusal has been answered by a call, and its words have been seen; numbers that are none have words too. */
static void names(void) {
    const uint32_t no_refusal[8] = {15, 17, 18, 19, 20, 256, 256 + LMR5_REFUSED_SHORT, UINT32_MAX};
    for (uint32_t number = 0; number < NUMBERS; number++)
        see_that("a refusal that calls answer", is_met[number] == (words[number] != NULL));
    for (size_t i = 0; i < 8; i++)
        see_name("no refusal", no_refusal[i], "unknown refusal");
}

static void former_flags(void) {
    const size_t last = LMR5_FLAG_PRESSURE_TENDENCY;
    start();
    see_given("no flags", lmr5_set_flag(report, ROOM, last, LMR5_VALUE_R, &all), LMR5_GIVEN_NOTHING, 0, 0, 0);
    see_given("put", lmr5_put(report, ROOM, 1, zeros, 16, &all), LMR5_GIVEN_NOTHING, 0, 0, 0);
    for (size_t flag = LMR5_FLAG_SHIP_POSITION; flag <= last; flag++) {
        see_given("a flag set over missing", lmr5_set_flag(report, ROOM, flag, LMR5_VALUE_S, &all), no_flag, 0, 0, 0);
        for (size_t value = LMR5_VALUE_R; value <= LMR5_VALUE_S; value++) {
            const lmr5_answer read = read_flag(flag);
            see_as_read("a flag set", lmr5_set_flag(report, ROOM, flag, value, &all), read);
        }
    }
    see_given("a flag refused", lmr5_set_flag(report, ROOM, last, 11, &all), LMR5_GIVEN_NOTHING, 0, 0, 0);
    for (size_t flag = LMR5_FLAG_SHIP_POSITION; flag <= last; flag++) {
        see_given("a flag cleared", lmr5_clear_flag(report, ROOM, flag, &all), LMR5_GIVEN_FLAG, LMR5_VALUE_S, 0, 0);
        see_given("a flag cleared again", lmr5_clear_flag(report, ROOM, flag, &all), no_flag, 0, 0, 0);
    }
    see_given("dropped", lmr5_drop(report, ROOM, 1, &all), LMR5_GIVEN_NOTHING, 0, 0, 0);
}

/* The indicators, ascending, and whether one rests on a field. */
static const uint8_t indicators[LMR5_INDICATORS] = {LMR5_DI, LMR5_WI, LMR5_VI, LMR5_TI, LMR5_BI, LMR5_HI};

static int rests_on(size_t indicator, size_t field) {
    switch (indicator) {
    case LMR5_DI:
        return field == LMR5_D;
    case LMR5_WI:
        return field == LMR5_W;
    case LMR5_VI:
        return field == LMR5_VB;
    case LMR5_TI:
        return field == LMR5_A || field == LMR5_WB || field == LMR5_DPT || field == LMR5_S;
    case LMR5_BI:
        return field == LMR5_S;
    default:
        return field == LMR5_H;
    }
}

static int is_present(size_t field) {
    return read_field(field).given == LMR5_GIVEN_VALUE;
}

static int has_data(size_t indicator) {
    for (size_t field = LMR5_BOX10; field <= LMR5_A6; field++)
        if (rests_on(indicator, field) && is_present(field))
            return 1;
    return 0;
}

static void set_to(size_t field, int64_t value) {
    see("a field set", lmr5_set_field(report, ROOM, field, value, &all), 0, 0);
}

static void put_5(void) {
    see("attachment 5 put", lmr5_put(report, ROOM, 5, nibbles, 1, &all), 0, 0);
}

/* The fresh report with all indicators, and with all fields. */
static void start_indicators(void) {
    start();
    for (size_t i = 0; i < LMR5_INDICATORS; i++)
        set_to(indicators[i], some_value(indicators[i]));
}

static void start_all(void) {
    start();
    for (size_t field = LMR5_BOX10; field <= LMR5_A6; field++)
        set_to(field, some_value(field));
}

/* What is found comes to the front of an output of this length, and the rest stays. The report is only read. */
static void see_found(const char *what, size_t length, const uint8_t *due, size_t count) {
    uint8_t out[LONG];
    lmr5_answer answer;
    memset(out, 0xa5, sizeof out);
    memcpy(other, report, ROOM);
    answer = lmr5_find_indicators(report, ROOM, out, length, &all);
    see(what, answer, 0, 0);
    see_given(what, answer, LMR5_GIVEN_COUNT, (int64_t)count, 0, 0);
    see_that(what, memcmp(out, due, count) == 0 && is_filled(out + count, LONG - count));
    see_that(what, memcmp(report, other, ROOM) == 0);
}

/* Refused, it writes nothing. */
static void see_find_refused(const char *what, size_t room, size_t length, uint32_t refusal) {
    uint8_t out[LONG];
    lmr5_answer answer;
    memset(out, 0xa5, sizeof out);
    answer = lmr5_find_indicators(report, room, out, length, &all);
    see(what, answer, refusal, 0);
    see_given(what, answer, LMR5_GIVEN_NOTHING, 0, 0, 0);
    see_that(what, is_filled(out, sizeof out));
}

/* With exact room, with more, with each length that is too short, and without an output. */
static void see_finds(const char *what, const uint8_t *due, size_t count) {
    const lmr5_answer answer = lmr5_find_indicators(report, ROOM, NULL, 0, &all);
    see(what, answer, count == 0 ? 0 : LMR5_REFUSED_ROOM, 0);
    see_given(what, answer, count == 0 ? LMR5_GIVEN_COUNT : LMR5_GIVEN_NOTHING, 0, 0, 0);
    for (size_t length = 0; length < count; length++)
        see_find_refused(what, ROOM, length, LMR5_REFUSED_ROOM);
    see_found(what, count, due, count);
    see_found(what, count + 1, due, count);
    see_found(what, LONG, due, count);
}

/* Each set of indicators without data, beside attachments; then all of them beside each other field. */
static void found_indicators(void) {
    uint8_t due[LMR5_INDICATORS] = {0};
    for (size_t set = 0; set < 1 << LMR5_INDICATORS; set++) {
        size_t count = 0;
        start();
        for (size_t i = 0; i < LMR5_INDICATORS; i++)
            if (set >> i & 1) {
                set_to(indicators[i], some_value(indicators[i]));
                due[count++] = indicators[i];
            }
        see_finds("indicators alone", due, count);
        see("put", lmr5_put(report, ROOM, 6, nibbles, 5, &all), 0, 0);
        see_finds("indicators beside attachment 6", due, count);
        put_5();
        see_finds("indicators beside attachment 5", due, 0);
        see("attachment 5 dropped", lmr5_drop(report, ROOM, 5, &all), 0, 0);
        see_finds("indicators without attachment 5", due, count);
    }
    for (size_t field = LMR5_BOX10; field <= LMR5_A6; field++) {
        size_t count = 0;
        start_indicators();
        set_to(field, some_value(field));
        for (size_t i = 0; i < LMR5_INDICATORS; i++)
            if (!rests_on(indicators[i], field))
                due[count++] = indicators[i];
        see_finds("indicators beside one field", due, count);
    }
    start_all();
    see_finds("all fields", due, 0);
    start_indicators();
    see_find_refused("37 bytes", 37, LONG, LMR5_REFUSED_SHORT);
    see_find_refused("37 bytes, no room", 37, 0, LMR5_REFUSED_SHORT);
}

static lmr5_answer clear_with(size_t field) {
    return lmr5_clear_with_indicators(report, ROOM, field, &all);
}

/* It answers as a clear of the field, and leaves what that and the clears of its indicators leave: none without data. */
static void see_clears(const char *what, size_t field) {
    uint8_t before[ROOM];
    lmr5_answer answer, due;
    memcpy(before, report, ROOM);
    due = lmr5_clear_field(report, ROOM, field, &all);
    for (size_t i = 0; i < LMR5_INDICATORS; i++)
        if (rests_on(indicators[i], field) && !has_data(indicators[i]))
            see(what, lmr5_clear_field(report, ROOM, indicators[i], &all), 0, 0);
    memcpy(other, report, ROOM);
    memcpy(report, before, ROOM);
    answer = clear_with(field);
    see(what, answer, due.refusal, due.place);
    see_given(what, answer, due.given, due.first, due.second, due.third);
    see_that(what, memcmp(report, other, ROOM) == 0);
    for (size_t i = 0; i < LMR5_INDICATORS; i++)
        see_that(what, !rests_on(indicators[i], field) || !is_present(indicators[i]) || has_data(indicators[i]));
}

static void clears_with_indicators(void) {
    for (size_t field = LMR5_BOX10; field <= LMR5_A6; field++)
        for (int with_5 = 0; with_5 < 2; with_5++)
            for (int which = 0; which < 4; which++) {
                if (which == 0)
                    start();
                else if (which == 3)
                    start_all();
                else
                    start_indicators();
                if (which == 2)
                    set_to(field, some_value(field));
                if (with_5)
                    put_5();
                see_clears("a field cleared with its indicators", field);
            }
    for (size_t set = 0; set < 16; set++)
        for (size_t field = LMR5_A; field <= LMR5_S; field++) {
            start_indicators();
            for (size_t i = 0; i < 4; i++)
                if (set >> i & 1)
                    set_to(LMR5_A + i, -5);
            see_clears("one of some temperatures cleared", field);
        }
}

/* 8 and 10 change nothing. Three of the numbers that are no field end in that of D. */
static void clears_refused(void) {
    const size_t no_field[6] = {0, LMR5_A6 + 1, 64 + LMR5_D, 256 + LMR5_D, SIZE_MAX / 2 + 1 + LMR5_D, SIZE_MAX};
    const size_t required[5] = {LMR5_BOX10, LMR5_YEAR, LMR5_MONTH, LMR5_X, LMR5_Y};
    start_all();
    memcpy(other, report, ROOM);
    for (size_t i = 0; i < 6; i++) {
        const lmr5_answer answer = clear_with(no_field[i]);
        see("no field cleared with its indicators", answer, LMR5_REFUSED_NUMBER, 0);
        see_given("no field cleared with its indicators", answer, LMR5_GIVEN_NOTHING, 0, 0, 0);
    }
    for (size_t i = 0; i < 5; i++) {
        const lmr5_answer answer = clear_with(required[i]);
        see("a required field cleared with its indicators", answer, LMR5_REFUSED_REQUIRED, required[i]);
        see_given("a required field cleared with its indicators", answer, LMR5_GIVEN_NOTHING, 0, 0, 0);
    }
    see("37 bytes", lmr5_clear_with_indicators(report, 37, 0, &all), LMR5_REFUSED_SHORT, 0);
    see_that("refused clears with indicators", memcmp(report, other, ROOM) == 0);
}

/* What is given, and what is left, of some fields by name. */
static void clears_by_name(void) {
    uint8_t fresh[ROOM];
    start();
    memcpy(fresh, report, ROOM);
    set_to(LMR5_DI, 3);
    set_to(LMR5_D, 240);
    see_given("D with DI", clear_with(LMR5_D), LMR5_GIVEN_VALUE, 240, 0, 0);
    see_that("D with DI", memcmp(report, fresh, ROOM) == 0);
    set_to(LMR5_DI, 3);
    see_given("DI without D", clear_with(LMR5_D), no_value, 0, 0, 0);
    see_that("DI without D", memcmp(report, fresh, ROOM) == 0);
    set_to(LMR5_DI, 3);
    set_to(LMR5_D, 240);
    see_given("DI alone", clear_with(LMR5_DI), LMR5_GIVEN_VALUE, 3, 0, 0);
    see_that("DI alone", !is_present(LMR5_DI) && is_present(LMR5_D));
    set_to(LMR5_WI, 0);
    see_given("D, where WI has lost W", clear_with(LMR5_D), LMR5_GIVEN_VALUE, 240, 0, 0);
    see_that("D, where WI has lost W", !is_present(LMR5_D) && is_present(LMR5_WI));
    see_given("W, which is missing", clear_with(LMR5_W), no_value, 0, 0, 0);
    see_that("W, which is missing", memcmp(report, fresh, ROOM) == 0);
    set_to(LMR5_TI, 1);
    set_to(LMR5_A, 198);
    set_to(LMR5_S, 286);
    set_to(LMR5_BI, 2);
    see_given("S beside A", clear_with(LMR5_S), LMR5_GIVEN_VALUE, 286, 0, 0);
    see_that("S beside A", is_present(LMR5_TI) && is_present(LMR5_A) && !is_present(LMR5_S) && !is_present(LMR5_BI));
    see_given("A, the last of TI", clear_with(LMR5_A), LMR5_GIVEN_VALUE, 198, 0, 0);
    see_that("A, the last of TI", memcmp(report, fresh, ROOM) == 0);
    set_to(LMR5_TI, 0);
    set_to(LMR5_S, 0);
    set_to(LMR5_BI, 0);
    see_given("S, 0 and the last of TI", clear_with(LMR5_S), LMR5_GIVEN_VALUE, 0, 0, 0);
    see_that("S, 0 and the last of TI", memcmp(report, fresh, ROOM) == 0);
}

/* D, with DI; D again, which is missing; field 47; MONTH; and an entry of no kind, before which the replay ends. */
static void replayed_clears(void) {
    enum { ENTRY = 9, RECORD = 37, CALLS = 4 };
    const uint8_t script[(CALLS + 1) * ENTRY] = {
        LMR5_SCRIPT_CLEAR_WITH_INDICATORS,     0, 0, 0, 0, 0, 0, 0, LMR5_D,
        LMR5_SCRIPT_CLEAR_WITH_INDICATORS,     0, 0, 0, 0, 0, 0, 0, LMR5_D,
        LMR5_SCRIPT_CLEAR_WITH_INDICATORS,     0, 0, 0, 0, 0, 0, 0, LMR5_A6 + 1,
        LMR5_SCRIPT_CLEAR_WITH_INDICATORS,     0, 0, 0, 0, 0, 0, 0, LMR5_MONTH,
        LMR5_SCRIPT_CLEAR_WITH_INDICATORS + 1, 0, 0, 0, 0, 0, 0, 0, LMR5_D};
    uint8_t fresh[ROOM], due[(CALLS + 1) * RECORD] = {0}, log[sizeof due];
    lmr5_performed performed;
    due[0] = LMR5_LOG_ACCEPTED;
    due[10] = LMR5_GIVEN_VALUE;
    due[18] = 240;
    due[RECORD] = LMR5_LOG_ACCEPTED;
    due[RECORD + 10] = LMR5_GIVEN_VALUE + LMR5_GIVEN_MISSING;
    due[2 * RECORD] = LMR5_LOG_REFUSED;
    due[2 * RECORD + 1] = LMR5_REFUSED_NUMBER;
    due[3 * RECORD] = LMR5_LOG_REFUSED;
    due[3 * RECORD + 1] = LMR5_REFUSED_REQUIRED;
    due[3 * RECORD + 9] = LMR5_MONTH;
    memset(due + CALLS * RECORD, 0xa5, RECORD);
    memset(log, 0xa5, sizeof log);
    start();
    memcpy(fresh, report, ROOM);
    set_to(LMR5_DI, 3);
    set_to(LMR5_D, 240);
    performed = lmr5_replay(report, ROOM, script, sizeof script, log, sizeof log, &all);
    see_that("clears with indicators replayed",
             performed.calls == CALLS && performed.taken == CALLS * ENTRY && performed.written == CALLS * RECORD);
    see_that("their records", memcmp(log, due, sizeof due) == 0);
    see_that("their report", memcmp(report, fresh, ROOM) == 0);
}

static void see_entry(const char *what, uint16_t entry, uint16_t due) {
    if (entry == due)
        return;
    printf("include/lmr5.h: the entry of %s: 0x%04x\n", what, (unsigned)entry);
    differences++;
}

/* The table lies between two entries that stay. */
static void characters(void) {
    uint16_t room[258];
    for (size_t i = 0; i < 258; i++)
        room[i] = 0xa5a5;
    lmr5_character_table(room + 1);
    see_entry("A", room[1 + 'A'], 0x20c1);
    see_entry("a", room[1 + 'a'], 0x3f61);
    see_entry("the space", room[1 + ' '], 0x100a);
    see_entry("byte 0", room[1], 0x3f00);
    see_entry("byte 255", room[1 + 255], 0x3fff);
    see_entry("what stands before", room[0], 0xa5a5);
    see_entry("what stands behind", room[257], 0xa5a5);
}

int main(void) {
    lmr5_all_flags(&all);
    by_the_report();
    by_an_argument();
    flags();
    missing();
    former_values();
    former_flags();
    found_indicators();
    clears_with_indicators();
    clears_refused();
    clears_by_name();
    replayed_clears();
    tables();
    own_flags();
    texts_refused();
    texts_fetched();
    sets();
    counts();
    costliest_texts();
    readers();
    forged_readers();
    replayed_texts();
    characters();
    names();
    if (differences == 0)
        puts("include/lmr5.h: the numbers of refusals and flags as in the library, their words, what is missing, its former "
             "values, its indicators, its tables of flags, its texts and their reader, the costliest texts, and entries of the "
             "table of the characters");
    return differences != 0;
}
