/*
 * Packed LMR.5 marine reports: judged, read and corrected in place.
 *
 * Link lib/liblmr5.a or lib/liblmr5.so, which `make lib` gives. Each function of the library is proved, on every input, to meet
 * its promise in crates/lmr5_c/src/lib.rt. This header says the same in words, and docs/FORMAT.md in full; its signatures and
 * numbers are tested against the code. The two functions that are defined here are tested. CHANGELOG.md has the versions.
 *
 * WHAT A CALL GETS
 * A buffer is a pointer and its length, in elements. The library keeps no pointer, allocates nothing, owns nothing and has
 * no state: when a call returns, every buffer is the caller's alone. A call may be made from any thread. What the caller
 * sees to, since the library cannot:
 *   - A length is the true length of the memory behind its pointer, and at most PTRDIFF_MAX bytes. NULL is allowed where
 *     the length is 0. `contents` points to 6 numbers, `table` of lmr5_character_table to 256, every other `table` to the 140
 *     marks of an lmr5_flag_table, `reader` to an lmr5_text_reader. Pointers are aligned as their type asks, as C's own are.
 *   - All memory that a call gets is initialised, outputs too: a call may leave part of an output as it was.
 *   - A buffer that a call may write (not `const`) overlaps no other buffer of that call. Two `const` buffers may overlap. A
 *     table is a buffer too, and so is a reader.
 *   - While a call runs no other thread writes its buffers, nor reads those that it may write.
 *
 * Which flags are permitted is for the caller to say. Every call that checks a report or a content takes the caller's table of
 * permitted flags as its last argument; the library keeps none. Only lmr5_all_flags and lmr5_load_flags write a table. A
 * program that permits all flags calls lmr5_all_flags once and lends that table to each call.
 *
 * A report stands at the front of its buffer; the buffer may be longer. A report takes 38 to LMR5_LONGEST_REPORT bytes, and a
 * longer buffer leaves room for attachments. Bytes behind the report are the caller's; a put that makes the report longer
 * writes over them, as far as the buffer goes. Where other reports follow, lend a report's own bytes only: a put that needs
 * more is then refused.
 *
 * WHAT A CALL ANSWERS
 * An lmr5_answer. Four refuse nothing themselves: lmr5_replay answers an lmr5_performed, lmr5_next_symbol an lmr5_symbol,
 * lmr5_character_table and lmr5_all_flags nothing.
 * Accepted: `refusal` and `place` are 0, and `given` says what numbers there are. Refused: `refusal` is one of enum
 * lmr5_refusal, `place` says where, all else is 0, and no byte of any buffer has changed, but for the reader of
 * lmr5_open_text, which is written all the same.
 *
 * THE REPORT IS CHECKED FIRST by every call that takes one, under the table, whatever its other arguments are; only
 * lmr5_next_symbol leaves that to the opening of its reader. The first of these that applies is the refusal, "the report's
 * refusals" below:
 *   1, place 0, under 38 bytes; 2 or 3, fields ascending; 4; attachment by attachment: 1 (its header does not fit), 5, 1 (its
 *   content does not fit), 6; 7.
 * Then come the call's own refusals, in the order in which they are named.
 *
 * Values are whole numbers in the field's unit: 286 is 28.6 degrees C. A nibble is 4 bits; in an attachment's content and in a
 * tail each nibble takes a byte, 0 to 15.
 */
#ifndef LMR5_INCLUDED
#define LMR5_INCLUDED

#include <stddef.h>
#include <stdint.h>

/*
 * The version of this header and of its library. The minor number is raised where something is added, such as a call, a struct
 * or a number of an enum. The major one is raised, and the minor one is 0 again, where a declaration changes or goes, or a call
 * gives or means something else. A program needs a library of the major number that it was built with, and of the same minor
 * number or a later one. It loads the shared library under a name that ends in the major number, and so none of another one.
 * LMR5_VERSION is the version as one number, for `#if`: 5.2 is 5002.
 */
#define LMR5_VERSION_MAJOR 5
#define LMR5_VERSION_MINOR 2
#define LMR5_VERSION (LMR5_VERSION_MAJOR * 1000 + LMR5_VERSION_MINOR)

#ifdef __cplusplus
extern "C" {
#endif

/* What a call answers. */
typedef struct lmr5_answer {
    uint32_t refusal; /* 0: accepted; else enum lmr5_refusal */
    uint32_t given;   /* the labels of the numbers below; 0: there is none */
    uint64_t place;   /* of the refusal: a field, a flag or an attachment's position from 1; else 0 */
    int64_t first;    /* the numbers; 0 where one is missing (lmr5_is_missing) or not given */
    int64_t second;
    int64_t third;
} lmr5_answer;

/*
 * A label is a byte that says what a number is. The lowest byte of `given` is the label of `first`, the next that of `second`,
 * the one after that of `third`; the highest is 0. A call that gives one number has its label alone in `given`. Where the
 * number is missing, its label has LMR5_GIVEN_MISSING added: a missing field is LMR5_GIVEN_VALUE + LMR5_GIVEN_MISSING. Look
 * at `refusal` first and ask lmr5_is_missing next, before `first` is read.
 * No answer has labels 4 to 7 yet: lmr5_unpack stores those numbers in `contents`.
 */
enum lmr5_given {
    LMR5_GIVEN_NOTHING = 0,     /* no number */
    LMR5_GIVEN_VALUE = 1,       /* a field's value; of set and clear the former one */
    LMR5_GIVEN_FLAG = 2,        /* a flag's value; of set and clear the former one */
    LMR5_GIVEN_COUNT = 3,       /* how many bytes a fetch wrote to an output, or lmr5_find_indicators to its own */
    LMR5_GIVEN_WORD = 4,        /* a presence word */
    LMR5_GIVEN_PRESENT = 5,     /* how many fields are present */
    LMR5_GIVEN_RPTIN = 6,
    LMR5_GIVEN_ATTACHMENTS = 7, /* AC, how many attachments */
    LMR5_GIVEN_BYTES = 8,       /* a report's size in bytes */
    LMR5_GIVEN_NIBBLES = 9,     /* how many nibbles of content a ship text takes */
    LMR5_GIVEN_DECK = 10,       /* the character set of the input deck: enum lmr5_set */
    LMR5_GIVEN_MISSING = 128    /* added to a label: the number is missing, which is not 0 */
};

/*
 * Whether the call was accepted and its first number is missing: not 0 if so, else 0. `first` is 0 for a missing number, and
 * for a value of 0. A refused call gives no number, so none of it is missing.
 */
static inline int lmr5_is_missing(lmr5_answer answer)
{
    return (answer.given & LMR5_GIVEN_MISSING) != 0;
}

enum lmr5_refusal {
    /* by the report's bytes, or pack's tail */
    LMR5_REFUSED_SHORT = 1,       /* under 38 bytes, place 0; or an attachment does not fit, place its position */
    LMR5_REFUSED_CODE = 2,        /* a code above the highest; place: the field */
    LMR5_REFUSED_MISSING = 3,     /* a required field is missing; place: the field */
    LMR5_REFUSED_CHECKSUM = 4,    /* the checksum differs */
    LMR5_REFUSED_ATTACHMENT = 5,  /* an attachment of no nibbles, with id 0 or a repeated id; place: its position */
    LMR5_REFUSED_BODY = 6,        /* an attachment's flags or text invalid, or a flag of it not permitted; place: its position */
    LMR5_REFUSED_PADDING = 7,     /* the padding nibble is not 0 */
    /* by an argument */
    LMR5_REFUSED_NUMBER = 8,      /* no such field (1 to 46), flag (1 to 14) or id (1 to 15); a wrong bit of a presence word */
    LMR5_REFUSED_VALUE = 9,       /* value out of range, or a flag not permitted; place: the field or flag. Or a costliest
                                     text of over 85 symbols, place 0 */
    LMR5_REFUSED_REQUIRED = 10,   /* required field cleared, or absent in pack; place: the field */
    LMR5_REFUSED_NO_SUCH = 11,    /* no such attachment */
    LMR5_REFUSED_LENGTH = 12,     /* a content without nibbles, or with over 255 */
    LMR5_REFUSED_ROOM = 13,       /* no room: for the new report, for what is written to an output, for 46 values; or a text and
                                     its marks of different lengths */
    LMR5_REFUSED_CONTENT = 14,    /* a byte over 15 in a content or tail; a content invalid or with a flag not permitted; a
                                     plain symbol without a short code, or a mark over 1 */
    /* by a table of flags; there is no 15 yet */
    LMR5_REFUSED_TABLE = 16       /* not 140 bytes, a byte other than 0 or 1, or a row without a 1 */
};

/* A refusal in words, for any number: 0 is "accepted", and a number that this header does not have "unknown refusal". */
static inline const char *lmr5_refusal_name(uint32_t refusal)
{
    switch (refusal) {
    case 0:
        return "accepted";
    case LMR5_REFUSED_SHORT:
        return "the report or an attachment is cut short";
    case LMR5_REFUSED_CODE:
        return "a code is above the field's highest";
    case LMR5_REFUSED_MISSING:
        return "a required field is missing";
    case LMR5_REFUSED_CHECKSUM:
        return "the checksum differs";
    case LMR5_REFUSED_ATTACHMENT:
        return "an attachment is empty, has id 0 or repeats an id";
    case LMR5_REFUSED_BODY:
        return "an attachment's flags or ship text are invalid or not permitted";
    case LMR5_REFUSED_PADDING:
        return "the padding nibble is not 0";
    case LMR5_REFUSED_NUMBER:
        return "there is no such field, flag or id, or a presence bit is of no field";
    case LMR5_REFUSED_VALUE:
        return "the value is out of range or not permitted";
    case LMR5_REFUSED_REQUIRED:
        return "the field is required";
    case LMR5_REFUSED_NO_SUCH:
        return "there is no such attachment";
    case LMR5_REFUSED_LENGTH:
        return "the content has no nibble or over 255";
    case LMR5_REFUSED_ROOM:
        return "a buffer is too short, or a text and its marks differ in length";
    case LMR5_REFUSED_CONTENT:
        return "the content is invalid or not permitted";
    case LMR5_REFUSED_TABLE:
        return "the table of flags is invalid";
    default:
        return "unknown refusal";
    }
}

/* The longest report, in bytes. */
enum lmr5_longest { LMR5_LONGEST_REPORT = 1853 };

/* Field numbers, with the range of the value. A field that is not required may be missing. */
enum lmr5_field {
    LMR5_BOX10 = 1,   /* 10 degree box: 1 to 648, required */
    LMR5_YEAR = 2,    /* year: 1800 to 2054, required */
    LMR5_MONTH = 3,   /* month: 1 to 12, required */
    LMR5_DAY = 4,     /* day: 1 to 31 */
    LMR5_HOUR = 5,    /* hour, GMT: 0 to 23 */
    LMR5_X = 6,       /* longitude: 0 to 3599, in 0.1 degree east, required */
    LMR5_Y = 7,       /* latitude: -900 to 900, in 0.1 degree north, required */
    LMR5_XYI = 8,     /* precision of X and Y: 0 to 3 */
    LMR5_CD = 9,      /* card deck: 0 to 999 */
    LMR5_SID = 10,    /* source ID: 0 to 254 */
    LMR5_ST = 11,     /* ship type: 0 to 7 */
    LMR5_QI = 12,     /* quality indicator: 0 to 2 */
    LMR5_DS = 13,     /* duplicate status: 0 to 5 */
    LMR5_DC = 14,     /* duplicate check: 0 to 2 */
    LMR5_TC = 15,     /* track check: 0 to 1 */
    LMR5_PB = 16,     /* pressure bias: 0 to 2 */
    LMR5_DI = 17,     /* wind direction indicator: 0 to 5 */
    LMR5_D = 18,      /* wind direction: 1 to 362, in degrees; 361 calm, 362 variable */
    LMR5_WI = 19,     /* wind speed indicator: 0 to 3 */
    LMR5_W = 20,      /* wind speed: 0 to 1022, in 0.1 m/s */
    LMR5_VI = 21,     /* visibility indicator: 0 to 2 */
    LMR5_VB = 22,     /* visibility: 90 to 99 */
    LMR5_PW = 23,     /* present weather: 0 to 99 */
    LMR5_W1 = 24,     /* past weather: 0 to 9 */
    LMR5_W2 = 25,     /* second past weather: 0 to 9 */
    LMR5_P = 26,      /* sea level pressure: 8700 to 10746, in 0.1 mb */
    LMR5_TI = 27,     /* temperature indicator: 0 to 5 */
    LMR5_A = 28,      /* air temperature: -999 to 999, in 0.1 degree C */
    LMR5_WB = 29,     /* wet bulb temperature: -999 to 999, in 0.1 degree C */
    LMR5_DPT = 30,    /* dew point temperature: -999 to 999, in 0.1 degree C */
    LMR5_S = 31,      /* sea surface temperature: -999 to 999, in 0.1 degree C */
    LMR5_BI = 32,     /* bucket indicator: 0 to 2 */
    LMR5_C = 33,      /* total cloud amount: 0 to 9 */
    LMR5_NH = 34,     /* lower cloud amount: 0 to 9 */
    LMR5_CL = 35,     /* low cloud type: 0 to 10 */
    LMR5_HI = 36,     /* cloud height indicator: 0 to 1 */
    LMR5_H = 37,      /* cloud height: 0 to 10 */
    LMR5_CM = 38,     /* middle cloud type: 0 to 10 */
    LMR5_CH = 39,     /* high cloud type: 0 to 10 */
    LMR5_WD = 40,     /* wave direction: 0 to 38 */
    LMR5_WP = 41,     /* wave period: 0 to 30, in s */
    LMR5_WH = 42,     /* wave height: 0 to 99, in 0.5 m */
    LMR5_SD = 43,     /* swell direction: 0 to 38 */
    LMR5_SP = 44,     /* swell period: 0 to 30, in s */
    LMR5_SH = 45,     /* swell height: 0 to 99, in 0.5 m */
    LMR5_A6 = 46      /* allowance no. 6 flag: 0 to 1 */
};

/* Flag numbers: the flags of id 1. */
enum lmr5_flag {
    LMR5_FLAG_SHIP_POSITION = 1,
    LMR5_FLAG_WIND = 2,
    LMR5_FLAG_VISIBILITY = 3,
    LMR5_FLAG_PRESENT_WEATHER = 4,
    LMR5_FLAG_PAST_WEATHER = 5,
    LMR5_FLAG_PRESSURE = 6,
    LMR5_FLAG_AIR_TEMPERATURE = 7,
    LMR5_FLAG_WET_BULB_TEMPERATURE = 8,
    LMR5_FLAG_DEW_POINT_TEMPERATURE = 9,
    LMR5_FLAG_SEA_SURFACE_TEMPERATURE = 10,
    LMR5_FLAG_CLOUD = 11,
    LMR5_FLAG_WAVE = 12,
    LMR5_FLAG_SWELL = 13,
    LMR5_FLAG_PRESSURE_TENDENCY = 14
};

/* The values of a flag, by their letters. A missing flag has none: clear it. */
enum lmr5_flag_value {
    LMR5_VALUE_R = 1, /* correct */
    LMR5_VALUE_A = 2, /* correctable: legality */
    LMR5_VALUE_B = 3, /* correctable: internal consistency */
    LMR5_VALUE_J = 4, /* suspect: internal consistency */
    LMR5_VALUE_K = 5, /* suspect: time */
    LMR5_VALUE_L = 6, /* suspect: extreme */
    LMR5_VALUE_M = 7, /* erroneous: legality */
    LMR5_VALUE_N = 8, /* erroneous: internal consistency */
    LMR5_VALUE_Q = 9, /* erroneous: extreme */
    LMR5_VALUE_S = 10 /* missing, in the words of LMR.5: a value like the others, and not a missing flag */
};

/*
 * ---- the table of permitted flags
 */

/*
 * The flags that the caller permits: marks[j - 1][v - 1] is the mark of flag j and value v. 1 is yes, any other number is no.
 * A missing flag has no mark and is always permitted. A report made under one table may be refused under another.
 */
typedef struct lmr5_flag_table {
    uint8_t marks[14][10];
} lmr5_flag_table;

/* Makes every mark 1: the table before any is loaded. */
void lmr5_all_flags(lmr5_flag_table *table);

/*
 * Loads the table that is lent as `marks`: row after row from flag 1, each row from value 1, a byte a mark, 1 for yes and 0
 * for no. Writes it to `table`. Gives nothing.
 * Refusals: 16, place 0, where `marks` is not 140 bytes, has a byte other than 0 or 1, or a row without a 1. The former
 * table, which `table` holds, then stays.
 */
lmr5_answer lmr5_load_flags(const uint8_t *marks, size_t marks_length, lmr5_flag_table *table);

/* ---- whole reports */

/*
 * Judges the report that the buffer begins with.
 * Gives the report's size in bytes. Refusals: the report's refusals. Changes nothing.
 */
lmr5_answer lmr5_judge(const uint8_t *report, size_t report_length, const lmr5_flag_table *table);

/*
 * Writes the report of these five values, all else missing and RPTIN 0, to the first 38 bytes of `out`.
 * Gives nothing. Refusals: 9 by ascending field (1, 2, 3, 6, 7); 13 where `out` is under 38 bytes. The rest of `out` stays.
 */
lmr5_answer lmr5_fresh(int64_t box10, int64_t year, int64_t month, int64_t x, int64_t y, uint8_t *out, size_t out_length);

/* The places of what lmr5_unpack gives in `contents`. */
enum lmr5_contents {
    LMR5_CONTENTS_WORD = 0,        /* the presence word: bit k, the lowest being bit 0, is set where field k is present */
    LMR5_CONTENTS_PRESENT = 1,     /* how many fields are present */
    LMR5_CONTENTS_RPTIN = 2,
    LMR5_CONTENTS_ATTACHMENTS = 3, /* AC, how many attachments */
    LMR5_CONTENTS_BYTES = 4,       /* the report's size in bytes */
    LMR5_CONTENTS_NIBBLES = 5      /* the tail's length in nibbles */
};

/*
 * Writes the values of fields 1 to 46, 0 where missing, to the first 46 of `values`; the tail, which is the nibbles of all
 * attachments, lengths and ids included, to the front of `tail`; and the rest to all six of `contents`.
 * Gives nothing else. Refusals: the report's refusals; 13 where `values` is under 46 or `tail` shorter than the tail.
 * A tail of 3631 bytes always does. The report and the rest of `values` and `tail` stay.
 */
lmr5_answer lmr5_unpack(const uint8_t *report, size_t report_length, int64_t *values, size_t values_length, uint8_t *tail,
                        size_t tail_length, uint64_t contents[6], const lmr5_flag_table *table);

/*
 * Writes the report of the values whose bits are set in `word`, of RPTIN and of such a tail, to the front of `out`. The
 * checksum and AC are worked out. Of `values` the first 46 count, and those of missing fields are ignored. `rptin` has 16
 * bits: of a wider number C hands on the low 16 before the library sees it, and no refusal tells of it.
 * Gives the report's size in bytes. Refusals: 13 where `values` is under 46; 8; fields ascending, 10 or 9; 14 for a byte of
 * the tail over 15; 1, 5, 6 for the tail's attachments, as in a report under the table; 13 where `out` is shorter than the
 * report.
 * The rest of `out` stays.
 */
lmr5_answer lmr5_pack(const int64_t *values, size_t values_length, uint64_t word, uint16_t rptin, const uint8_t *tail,
                      size_t tail_length, uint8_t *out, size_t out_length, const lmr5_flag_table *table);

/*
 * ---- the twelve calls on the report that a buffer begins with
 *
 * After an accepted call the report is packed anew in place, its checksum worked out. Where it has become shorter, the bytes
 * up to its old end are 0. Bytes behind both ends stay, as does RPTIN.
 *
 * Set and clear give the former value: what stood in the field or flag before the call, or that it was missing. An accepted one
 * has the answer, number and label, that lmr5_read_field or lmr5_read_flag would have had on the same buffer just before it.
 *
 * lmr5_find_indicators is described here too, but is not one of the twelve: no script holds it.
 */

/* Gives the value of a field, or that it is missing. Refusals: the report's refusals; 8. */
lmr5_answer lmr5_read_field(const uint8_t *report, size_t report_length, size_t field, const lmr5_flag_table *table);

/* Sets a field. Gives its former value, or that it was missing. Refusals: the report's refusals; 8; 9. */
lmr5_answer lmr5_set_field(uint8_t *report, size_t report_length, size_t field, int64_t value, const lmr5_flag_table *table);

/*
 * Makes a field missing; one that is missing already stays so. Gives its former value, or that it was missing.
 * Refusals: the report's refusals; 8; 10.
 */
lmr5_answer lmr5_clear_field(uint8_t *report, size_t report_length, size_t field, const lmr5_flag_table *table);

/*
 * An indicator is a field that says how reliable or how precise its data are. It rests on them. There are six:
 *   LMR5_DI  rests on  LMR5_D
 *   LMR5_WI            LMR5_W
 *   LMR5_VI            LMR5_VB
 *   LMR5_TI            LMR5_A, LMR5_WB, LMR5_DPT, LMR5_S
 *   LMR5_BI            LMR5_S
 *   LMR5_HI            LMR5_H
 * It has lost its data where they are all missing; LMR5_TI, where all four are. A report that holds an indicator without its
 * data is accepted.
 */
enum lmr5_indicators { LMR5_INDICATORS = 6 };

/*
 * Makes a field missing, and each indicator that rests on it and whose data are then all missing, whether or not attachment 5
 * stands. Does so also where the field is missing already. All other fields stay, among them an indicator that lost other data
 * before. Told to clear an indicator, it clears that alone.
 * Leaves what lmr5_clear_field leaves, called for the field and then for these indicators, ascending. Answers as
 * lmr5_clear_field does: gives the former value of the field, or that it was missing, and none of an indicator.
 * Refusals: the report's refusals; 8; 10.
 */
lmr5_answer lmr5_clear_with_indicators(uint8_t *report, size_t report_length, size_t field, const lmr5_flag_table *table);

/*
 * Finds the indicators that are present and have lost their data: writes their field numbers to the front of `out`, ascending,
 * a byte each. Where attachment 5 stands it finds none, since the data may be there. Gives how many it has found, with the
 * label LMR5_GIVEN_COUNT. The report and the rest of `out` stay.
 * Refusals: the report's refusals; 13 where `out` is shorter than what is found. LMR5_INDICATORS bytes always do. Where nothing
 * is found, `out` may have no bytes.
 */
lmr5_answer lmr5_find_indicators(const uint8_t *report, size_t report_length, uint8_t *out, size_t out_length,
                                 const lmr5_flag_table *table);

/* Gives the value of a flag, 1 to 10, or that it is missing. Refusals: the report's refusals; 8; 11 without id 1. */
lmr5_answer lmr5_read_flag(const uint8_t *report, size_t report_length, size_t flag, const lmr5_flag_table *table);

/*
 * Sets a flag to 1 to 10, and the quality code. Gives the flag's former value, or that it was missing.
 * Refusals: the report's refusals; 8; 9, place the flag, also for a value that the table does not permit; 11 without id 1.
 */
lmr5_answer lmr5_set_flag(uint8_t *report, size_t report_length, size_t flag, size_t value, const lmr5_flag_table *table);

/*
 * Makes a flag missing, and sets the quality code. Gives the flag's former value, or that it was missing.
 * Refusals: the report's refusals; 8; 11.
 */
lmr5_answer lmr5_clear_flag(uint8_t *report, size_t report_length, size_t flag, const lmr5_flag_table *table);

/*
 * Puts an attachment: replaces the content where the id stands, else appends it. `content` has a nibble a byte, as many as
 * its length says. Gives nothing.
 * Refusals: the report's refusals; 8; 12; 14, also for flags that the table does not permit; 13 where the buffer is shorter
 * than the new report.
 */
lmr5_answer lmr5_put(uint8_t *report, size_t report_length, size_t id, const uint8_t *content, size_t content_length,
                     const lmr5_flag_table *table);

/*
 * Writes an attachment's nibbles, one a byte, to the front of `out`. Gives how many. The rest of `out` stays.
 * Refusals: the report's refusals; 8; 11; 13 where `out` is shorter. 255 bytes always do.
 */
lmr5_answer lmr5_fetch(const uint8_t *report, size_t report_length, size_t id, uint8_t *out, size_t out_length,
                       const lmr5_flag_table *table);

/* Drops an attachment; the others keep their order. Gives nothing. Refusals: the report's refusals; 8; 11. */
lmr5_answer lmr5_drop(uint8_t *report, size_t report_length, size_t id, const lmr5_flag_table *table);

/*
 * The ship text, which is id 4, is a row of symbols. A plain symbol is a digit, a letter A to Z, a space or one of / & + - { },
 * in ASCII: these have short codes. An original symbol is a byte of the deck that the report was taken from. It may be any
 * byte, and the deck's character set says what it stands for: 193 is A in EBCDIC. Nothing is translated: the byte is the
 * deck's. Spaces are plain ones only; an original 32 ends a run of them, and is kept at the end of a text.
 * A text takes two buffers, with a byte for each symbol and no 0 at the end: `text` has the bytes, `origins` a mark for each.
 * A text of n symbols takes at most 3 n nibbles of content, and 1 to 255 where n is 1 to 85 and the last symbol is no plain
 * space.
 */
enum lmr5_origin {
    LMR5_ORIGIN_PLAIN = 0,
    LMR5_ORIGIN_ORIGINAL = 1
};

/* The character set of the deck, by SID, the source ID. */
enum lmr5_set {
    LMR5_SET_UNKNOWN = 0, /* any other SID, or none */
    LMR5_SET_EBCDIC = 1,  /* SID 1 to 3, 5 to 17, 19 to 21, 23 or 24 */
    LMR5_SET_ASCII = 2    /* SID 4 or 18 */
};

/*
 * Puts the ship text. Plain spaces at its end are not written. Gives how many nibbles of content were written, 1 to 255; the
 * three of the attachment's header are not counted. The label is LMR5_GIVEN_NIBBLES.
 * Refusals: the report's refusals; 13 where `text` and `origins` differ in length; 14 where any of the symbols is a plain byte
 * without a short code, or has a mark over 1; 12 where the text has no nibble or over 255; 13 where the buffer is shorter than
 * the new report. A text of 1 to 85 symbols, of which the last is no plain space, is never refused by 12.
 */
lmr5_answer lmr5_put_text(uint8_t *report, size_t report_length, const uint8_t *text, size_t text_length,
                          const uint8_t *origins, size_t origins_length, const lmr5_flag_table *table);

/*
 * Writes the bytes of the ship text to the front of `text` and their marks to the front of `origins`. Gives three numbers:
 * `first` is how many symbols there are, LMR5_GIVEN_COUNT; `second` is one of enum lmr5_set, LMR5_GIVEN_DECK, by the SID that
 * the report has now; `third` is how many nibbles of content were read, LMR5_GIVEN_NIBBLES, as lmr5_put_text counts them. So
 * `given` is LMR5_GIVEN_COUNT + 256 * LMR5_GIVEN_DECK + 65536 * LMR5_GIVEN_NIBBLES. The rest of both outputs stays.
 * Refusals: the report's refusals; 11 without id 4; 13 where either output is shorter than the text, and neither is then
 * written. 2295 bytes each always do.
 */
lmr5_answer lmr5_fetch_text(const uint8_t *report, size_t report_length, uint8_t *text, size_t text_length,
                            uint8_t *origins, size_t origins_length, const lmr5_flag_table *table);

/*
 * ---- the ship text for display, a symbol at a time
 *
 * A reader is five numbers, which the caller keeps. Opening writes all five, and each step moves them on. The first three are
 * for the library; the last two are the refusal of the opening.
 *   - It holds no pointer: each step is handed the report's buffer again.
 *   - It is meant for the bytes on which it was opened, unchanged since. After an edit, open it anew.
 *   - On any other bytes, or with any other five numbers, a step still reads nothing outside the buffer, changes nothing but
 *     the reader, and gives some symbol or the end.
 *   - A copy of a reader is a reader of its own, which goes on from where the first one stood.
 *   - It may be left at any symbol. Nothing is to be freed.
 */
typedef struct lmr5_text_reader {
    uint64_t place;         /* of the next code, in nibbles of the report */
    uint64_t end;           /* of the text, in nibbles of the report */
    uint64_t spaces;        /* how many spaces of a run are still to come */
    uint64_t refusal;       /* 0: opened; else enum lmr5_refusal */
    uint64_t refusal_place; /* of the refusal */
} lmr5_text_reader;

/* What a step gives. */
typedef struct lmr5_symbol {
    uint32_t kind; /* enum lmr5_symbol_kind */
    uint32_t byte; /* 0 at the end */
} lmr5_symbol;

enum lmr5_symbol_kind {
    LMR5_SYMBOL_END = 0,     /* there is no symbol left */
    LMR5_SYMBOL_PLAIN = 1,
    LMR5_SYMBOL_ORIGINAL = 2 /* its byte is the deck's, as it stands */
};

/*
 * Opens a reader of the ship text. Gives nothing. Refusals: the report's refusals; 11 without id 4. A reader whose opening is
 * refused is at its end at once.
 */
lmr5_answer lmr5_open_text(const uint8_t *report, size_t report_length, lmr5_text_reader *reader,
                           const lmr5_flag_table *table);

/*
 * Gives the next symbol: those that lmr5_fetch_text gives, in their order and each once, and then the end. At the end the
 * reader does not change, so each further step gives the end again.
 */
lmr5_symbol lmr5_next_symbol(const uint8_t *report, size_t report_length, lmr5_text_reader *reader);

/*
 * ---- the costliest ship text
 */

/*
 * Writes a text of `symbols` symbols that takes 3 nibbles a symbol, which is the most that any text takes: its bytes to the
 * front of `text`, their marks to the front of `origins`. No text of as many symbols needs more room in a report. Every mark
 * is LMR5_ORIGIN_ORIGINAL. The library chooses the bytes; a later version may choose others. Of 0 symbols it writes nothing.
 * Takes no report and no table. Gives nothing. The rest of both outputs stays.
 * Refusals: 9, place 0, where `symbols` is over 85; 13 where either output is shorter than the text, and neither is then
 * written. 85 bytes each always do.
 */
lmr5_answer lmr5_costliest_text(size_t symbols, uint8_t *text, size_t text_length, uint8_t *origins, size_t origins_length);

/*
 * ---- the characters of the ship text
 */

/*
 * Writes all 256 entries of `table`. table[b] is the code of byte b in a ship text: 4096 times the number of its nibbles, plus
 * the nibbles as one number, the first one highest. 'A', nibbles 12 and 1, is 0x20c1. 'a' has no short code and is escaped:
 * 0x3f61, nibbles 15, 6 and 1. One space is 0x100a; how a run of spaces is written no entry says. lmr5_put_text writes every
 * plain symbol but the space by these entries. An original symbol is always escaped: 'A' as 15, 4 and 1.
 */
void lmr5_character_table(uint16_t table[256]);

/*
 * ---- a script of calls
 *
 * A script is entries one after the other. An entry is a byte, its kind, and then what the call takes: numbers in 8 bytes,
 * the highest first, and bytes behind their number. A field's value is in two's complement.
 *
 *   kind                                     takes                                          bytes
 *   LMR5_SCRIPT_READ_FIELD             1     field                                          9
 *   LMR5_SCRIPT_SET_FIELD              2     field, value                                   17
 *   LMR5_SCRIPT_CLEAR_FIELD            3     field                                          9
 *   LMR5_SCRIPT_READ_FLAG              4     flag                                           9
 *   LMR5_SCRIPT_SET_FLAG               5     flag, value                                    17
 *   LMR5_SCRIPT_CLEAR_FLAG             6     flag                                           9
 *   LMR5_SCRIPT_PUT                    7     id, n, n bytes of content                      17 + n
 *   LMR5_SCRIPT_FETCH                  8     id, n, n bytes of output                       17 + n
 *   LMR5_SCRIPT_DROP                   9     id                                             9
 *   LMR5_SCRIPT_PUT_TEXT               10    n, n bytes of text, m, m bytes of origins      17 + n + m
 *   LMR5_SCRIPT_FETCH_TEXT             11    n, n bytes of output, m, m bytes of output     17 + n + m
 *   LMR5_SCRIPT_CLEAR_WITH_INDICATORS  12    field                                          9
 *
 * The log holds a record of each call, 37 bytes and then its outputs:
 *   - 10 bytes: enum lmr5_log; the refusal's number; its place in 8 bytes, the highest first. Number and place are 0 where
 *     the call is accepted.
 *   - A row of three numbers, 9 bytes each: a label, and the number in 8 bytes, the highest first, in two's complement. The
 *     number is 0 where it is missing. All 9 are 0 where there is no such number, and so all 27 where the call is refused.
 *     FETCH_TEXT gives three numbers, PUT and DROP none, the others one.
 *   - The outputs after the call, whole and in their order. FETCH has one, of n bytes, FETCH_TEXT two, of n and of m bytes, for
 *     the text and its origins; the others have none.
 * So a record takes 37 bytes, for FETCH n more and for FETCH_TEXT n + m more, whether the call is accepted or not.
 */
enum lmr5_script {
    LMR5_SCRIPT_READ_FIELD = 1,
    LMR5_SCRIPT_SET_FIELD = 2,
    LMR5_SCRIPT_CLEAR_FIELD = 3,
    LMR5_SCRIPT_READ_FLAG = 4,
    LMR5_SCRIPT_SET_FLAG = 5,
    LMR5_SCRIPT_CLEAR_FLAG = 6,
    LMR5_SCRIPT_PUT = 7,
    LMR5_SCRIPT_FETCH = 8,
    LMR5_SCRIPT_DROP = 9,
    LMR5_SCRIPT_PUT_TEXT = 10,
    LMR5_SCRIPT_FETCH_TEXT = 11,
    LMR5_SCRIPT_CLEAR_WITH_INDICATORS = 12
};

/* The first byte of a record. */
enum lmr5_log {
    LMR5_LOG_REFUSED = 0,
    LMR5_LOG_ACCEPTED = 1
};

/* How many calls of a script were performed, and how many bytes of script and log they took. */
typedef struct lmr5_performed {
    uint64_t calls;
    uint64_t taken;
    uint64_t written;
} lmr5_performed;

/*
 * Performs the entries of a script in their order, each on the report as the one before left it and all under one table, and
 * writes their records to the front of the log. A refused call changes nothing of the report, and the next is performed. Ends
 * before the first entry that is cut off, of another kind, or whose record does not fit the log. The rest of the log stays.
 */
lmr5_performed lmr5_replay(uint8_t *report, size_t report_length, const uint8_t *script, size_t script_length, uint8_t *log,
                           size_t log_length, const lmr5_flag_table *table);

#ifdef __cplusplus
}
#endif

#endif
