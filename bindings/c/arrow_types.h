/*
 * The functions of the proved library arrow_types, for C and C++ on x86-64.
 *
 * `bash tests/build library` writes it to target/staticlib/libarrow_types.a. It keeps no state and allocates nothing, works
 * in what is lent to it and on the stack, and calls nothing but what clears, copies and compares memory (memset and its
 * like). So every function is reentrant and thread-safe: any number of threads may call it at once, each with its own
 * buffers to write to, and read the same texts and rows.
 *
 * A call takes at most 64 KiB of stack, ARROW_TYPES_MAX_STACK: reading a text of 64 levels, by itself or in a rewrite, takes
 * the most, reading an image less than two thirds of what that takes, and anything else less than half. bindings/c/stack.c
 * measures it. Rows for every text are 48 KiB more: keep them off a small stack.
 *
 * A service that rewrites a text calls arrow_types_rewrite, which reads back what it prints: no name and no zone is lost.
 *
 * A slice is lent as a pointer and the number of its elements. What the caller owes:
 * - no pointer is null, also where the length is 0, and each points at as many elements as its length says;
 * - what a call writes is no part of what it reads, and nothing else uses it during the call;
 * - a bool is true or false, as it is once it was assigned.
 * Everything else is checked: any bytes may be lent as a text, any words as rows.
 *
 * A tree is three slices: a text, the name list and the rows. The rows of a tree are the rows filled,
 * ARROW_TYPES_ROW_WORDS words each: words behind them make the tree not sound. Names and zones are parts of the text,
 * so it is kept as long as the rows.
 *
 * Numbers and words here are those of the scope, docs/SCOPE.md: 'Numbers a caller may get' and 'The row table'.
 */
#ifndef ARROW_TYPES_H
#define ARROW_TYPES_H

#include <stdbool.h>
#include <stddef.h>
#include <stdint.h>

#ifdef __cplusplus
extern "C" {
#endif

/* The version of the library and of this header. */
#define ARROW_TYPES_VERSION "0.6.0"
#define ARROW_TYPES_VERSION_MAJOR 0
#define ARROW_TYPES_VERSION_MINOR 6
#define ARROW_TYPES_VERSION_PATCH 0

/* Words to a row. */
#define ARROW_TYPES_ROW_WORDS 12

/* Half words to a row that is kept in halves. */
#define ARROW_TYPES_HALF_ROW_WORDS 13

/* The most rows of a tree: ARROW_TYPES_MAX_ROWS * ARROW_TYPES_ROW_WORDS words are enough for every text. */
#define ARROW_TYPES_MAX_ROWS 1024

/* The most bytes of a text, read or printed. */
#define ARROW_TYPES_MAX_TEXT 16384

/* The bytes of a row in the archive record: an image has so many for each row, and names and zones come on top. */
#define ARROW_TYPES_RECORD_BYTES 17

/* The most bytes of stack that a call takes. */
#define ARROW_TYPES_MAX_STACK 65536

/* The most needs that are checked at once. */
#define ARROW_TYPES_MAX_NEEDS 32

/* The name list, the three names that stand in no text, end to end, and how many bytes it has. */
#define ARROW_TYPES_NAMES "itemrun_endsvalues"
#define ARROW_TYPES_NAMES_LENGTH 18

/*
 * The numbers of the refusals. 1 to 16 are the reader's: 1 and 2 come first, then the first that is met from left to
 * right. 17 to 19 are the printer's, in that order; depth and verdict refuse with 17 alone. The check of needs refuses with
 * 17 and 25 to 27, in that order, and taking a column out with 17, 25, 29 and 28, in that order. Writing into the archive record
 * refuses with 17 and 28, in that order, and reading from it with 30, 31 and 28, of which the first in the image counts, and then
 * with 17. Rows in halves are refused with 17 and then 28. No function here refuses with 20 to 24.
 */
enum arrow_types_refusal {
    ARROW_TYPES_TEXT_TOO_LONG = 1,       /* the text is longer than 16,384 bytes */
    ARROW_TYPES_NOT_UTF8 = 2,            /* the text is not UTF-8 */
    ARROW_TYPES_TOO_DEEP = 3,            /* types are nested deeper than 64 levels */
    ARROW_TYPES_TOO_MANY_ROWS = 4,       /* there are more types in the text than rows for them */
    ARROW_TYPES_TEXT_ENDS = 5,           /* the text ends where more is needed */
    ARROW_TYPES_STRING_NEVER_ENDS = 6,   /* a quoted string never ends */
    ARROW_TYPES_STRING_EMPTY = 7,        /* a quoted string is empty */
    ARROW_TYPES_UNKNOWN_WORD = 8,        /* a word is neither known nor a number of 64 bits */
    ARROW_TYPES_UNEXPECTED_TOKEN = 9,    /* a token stands where one of another sort is needed */
    ARROW_TYPES_NUMBER_OUT_OF_RANGE = 10, /* a number is outside its range */
    ARROW_TYPES_WRONG_TIME_UNIT = 11,    /* Time32 takes s or ms, and Time64 takes us or ns */
    ARROW_TYPES_WRONG_DECIMAL = 12,      /* a decimal's precision or scale is not one that it may have */
    ARROW_TYPES_MUST_BE_NON_NULL = 13,   /* Map entries, Map keys and run ends must be non-null */
    ARROW_TYPES_WRONG_MAP_ENTRIES = 14,  /* Map entries must be a Struct of two fields */
    ARROW_TYPES_WRONG_UNION_ID = 15,     /* a union id is negative or used twice */
    ARROW_TYPES_TRAILING_TEXT = 16,      /* something follows the type */
    ARROW_TYPES_NOT_SOUND = 17,          /* text and rows are no sound tree */
    ARROW_TYPES_NOT_LATIN = 18,          /* a name or zone to print in double quotes has a character above U+017F */
    ARROW_TYPES_PRINT_TOO_LONG = 19,     /* the printed text is longer than 16,384 bytes or the buffer */
    ARROW_TYPES_NOT_STRUCT = 25,         /* the root is not a Struct */
    ARROW_TYPES_TOO_MANY_NEEDS = 26,     /* there are more than 32 needs */
    ARROW_TYPES_WRONG_NEED_NAME = 27,    /* a need's name is empty or outside its text */
    ARROW_TYPES_NO_ROOM = 28,            /* there is no room for what is to be written */
    ARROW_TYPES_NO_SUCH_FIELD = 29,      /* there is no such field */
    ARROW_TYPES_WRONG_LENGTH = 30,       /* a length does not fit what is there */
    ARROW_TYPES_UNKNOWN_KIND = 31        /* there is no such kind */
};

/* The sentence of a refusal, for a person: what the enum says of its number. 0 and other numbers are no refusal. */
static inline const char *arrow_types_sentence(uint32_t number)
{
    static const char *const sentences[] = {
        "this is no refusal",
        "the text is longer than 16,384 bytes",
        "the text is not UTF-8",
        "types are nested deeper than 64 levels",
        "there are more types in the text than rows for them",
        "the text ends where more is needed",
        "a quoted string never ends",
        "a quoted string is empty",
        "a word is neither known nor a number of 64 bits",
        "a token stands where one of another sort is needed",
        "a number is outside its range",
        "Time32 takes s or ms, and Time64 takes us or ns",
        "a decimal's precision or scale is not one that it may have",
        "Map entries, Map keys and run ends must be non-null",
        "Map entries must be a Struct of two fields",
        "a union id is negative or used twice",
        "something follows the type",
        "text and rows are no sound tree",
        "a name or zone to print in double quotes has a character above U+017F",
        "the printed text is longer than 16,384 bytes or the buffer",
        "this is no refusal",
        "this is no refusal",
        "this is no refusal",
        "this is no refusal",
        "this is no refusal",
        "the root is not a Struct",
        "there are more than 32 needs",
        "a need's name is empty or outside its text",
        "there is no room for what is to be written",
        "there is no such field",
        "a length does not fit what is there",
        "there is no such kind",
    };
    return sentences[number < sizeof sentences / sizeof *sentences ? number : 0];
}

/* The words of a row. Rows stand parent first, children in order. Words that a kind does not use are 0. */
enum arrow_types_word {
    ARROW_TYPES_WORD_KIND = 0,
    ARROW_TYPES_WORD_ROWS = 1,     /* rows in this subtree, itself included */
    ARROW_TYPES_WORD_ROLE = 2,     /* 0 bare (root, a Dictionary's key and value), 1 nullable field, 2 non-null field */
    ARROW_TYPES_WORD_UNION_ID = 3, /* of a Union's field */
    ARROW_TYPES_WORD_NUMBER = 4,   /* unit (s, ms, us, ns: 0 to 3); interval unit (YearMonth, DayTime, MonthDayNano:
                                      0 to 2); length; precision; mode (0 Sparse, 1 Dense); keys sorted (1) or not */
    ARROW_TYPES_WORD_SCALE = 5,    /* scale plus 128, of a decimal */
    ARROW_TYPES_WORD_HOME = 6,     /* where the name is: 0 nowhere, 1 in the text, 2 in the name list */
    ARROW_TYPES_WORD_NAME_START = 7,
    ARROW_TYPES_WORD_NAME_LENGTH = 8,
    ARROW_TYPES_WORD_ZONE_START = 9, /* of a Timestamp's zone, in the text */
    ARROW_TYPES_WORD_ZONE_LENGTH = 10, /* 0 if it has none */
    ARROW_TYPES_WORD_PARENT = 11     /* the parent's row number, from 0; 0 for the root */
};

/* The kinds, in word 0. */
enum arrow_types_kind {
    ARROW_TYPES_KIND_NULL = 0,
    ARROW_TYPES_KIND_BOOLEAN = 1,
    ARROW_TYPES_KIND_INT8 = 2,
    ARROW_TYPES_KIND_INT16 = 3,
    ARROW_TYPES_KIND_INT32 = 4,
    ARROW_TYPES_KIND_INT64 = 5,
    ARROW_TYPES_KIND_UINT8 = 6,
    ARROW_TYPES_KIND_UINT16 = 7,
    ARROW_TYPES_KIND_UINT32 = 8,
    ARROW_TYPES_KIND_UINT64 = 9,
    ARROW_TYPES_KIND_FLOAT16 = 10,
    ARROW_TYPES_KIND_FLOAT32 = 11,
    ARROW_TYPES_KIND_FLOAT64 = 12,
    ARROW_TYPES_KIND_TIMESTAMP = 13,
    ARROW_TYPES_KIND_DATE32 = 14,
    ARROW_TYPES_KIND_DATE64 = 15,
    ARROW_TYPES_KIND_TIME32 = 16,
    ARROW_TYPES_KIND_TIME64 = 17,
    ARROW_TYPES_KIND_DURATION = 18,
    ARROW_TYPES_KIND_INTERVAL = 19,
    ARROW_TYPES_KIND_BINARY = 20,
    ARROW_TYPES_KIND_FIXED_SIZE_BINARY = 21,
    ARROW_TYPES_KIND_LARGE_BINARY = 22,
    ARROW_TYPES_KIND_BINARY_VIEW = 23,
    ARROW_TYPES_KIND_UTF8 = 24,
    ARROW_TYPES_KIND_LARGE_UTF8 = 25,
    ARROW_TYPES_KIND_UTF8_VIEW = 26,
    ARROW_TYPES_KIND_LIST = 27,
    ARROW_TYPES_KIND_LIST_VIEW = 28,
    ARROW_TYPES_KIND_FIXED_SIZE_LIST = 29,
    ARROW_TYPES_KIND_LARGE_LIST = 30,
    ARROW_TYPES_KIND_LARGE_LIST_VIEW = 31,
    ARROW_TYPES_KIND_STRUCT = 32,
    ARROW_TYPES_KIND_UNION = 33,
    ARROW_TYPES_KIND_DICTIONARY = 34,
    ARROW_TYPES_KIND_DECIMAL32 = 35,
    ARROW_TYPES_KIND_DECIMAL64 = 36,
    ARROW_TYPES_KIND_DECIMAL128 = 37,
    ARROW_TYPES_KIND_DECIMAL256 = 38,
    ARROW_TYPES_KIND_MAP = 39,
    ARROW_TYPES_KIND_RUN_END_ENCODED = 40
};

/*
 * Reads a text into lent rows.
 *
 * 0: the first ARROW_TYPES_ROW_WORDS * *count words are the rows, the words behind them are as they were, *place is 0.
 * 1 to 16: the text is refused; *count is 0, and all rows_length words are 0. *place is where, in bytes from the text's
 * start: the first byte of the last token taken, one that was only looked at not counting. But it is
 * - ARROW_TYPES_MAX_TEXT for 1, and 0 for 2;
 * - the first byte of the token that would have begun the type for 3 and 4, text_length if there is none;
 * - text_length for 5;
 * - the opening mark of the string at fault for 6 and 7;
 * - the first byte behind the type that is no space for 16.
 *
 * Fewer rows than 1,024 may be lent; where they run out the text is refused with 4. Words that make no whole row are
 * not used. arrow_types_rows_to_lend says how many are enough.
 */
uint32_t arrow_types_read(const uint8_t *text, size_t text_length,
                          uint32_t *rows, size_t rows_length, size_t *count, size_t *place);

/*
 * How many rows to lend for a text of so many bytes: (text_length + 1) / 5, and 1,024 at the most.
 *
 * A text that is read with 1,024 rows is read with these too, and fills the same rows. One that is refused with 1,024
 * is refused with these too, with the same number or with 4: where its own number matters, lend 1,024 rows once more.
 */
size_t arrow_types_rows_to_lend(size_t text_length);

/*
 * Prints a tree into a lent buffer, microseconds as us.
 *
 * 0: the first *length bytes are the text, with no zero behind it, and the bytes behind them are as they were.
 * 17 to 19: the tree is refused; *length is 0, and out is as it was.
 *
 * 16,384 bytes are enough for every text that is printed. A shorter buffer that the text does not fit gives 19.
 */
uint32_t arrow_types_print(const uint8_t *text, size_t text_length,
                           const uint8_t *names, size_t names_length,
                           const uint32_t *rows, size_t rows_length,
                           uint8_t *out, size_t out_length, size_t *length);

/*
 * The same, but microseconds are printed as the Rust crate arrow-schema prints them, with the micro sign: the bytes C2 B5
 * stand for the u. It is for what is compared with that. Each such unit makes the text a byte longer, and it is this text
 * that is to fit. Both spellings are read.
 */
uint32_t arrow_types_print_micro(const uint8_t *text, size_t text_length,
                                 const uint8_t *names, size_t names_length,
                                 const uint32_t *rows, size_t rows_length,
                                 uint8_t *out, size_t out_length, size_t *length);

/* The steps of a rewrite: how far it came. */
enum arrow_types_step {
    ARROW_TYPES_REWRITTEN = 0,     /* the text is rewritten, as the same type */
    ARROW_TYPES_NOT_READ = 1,      /* the text is not read */
    ARROW_TYPES_NOT_PRINTED = 2,   /* the type is not printed */
    ARROW_TYPES_NOT_READ_BACK = 3, /* what is printed does not read back */
    ARROW_TYPES_DIFFERENT = 4      /* what is printed reads back as another type */
};

/* The sentence of a step, for a person: what the enum says of it. */
static inline const char *arrow_types_step_sentence(uint32_t step)
{
    static const char *const sentences[] = {
        "the text is rewritten, as the same type",
        "the text is not read",
        "the type is not printed",
        "what is printed does not read back",
        "what is printed reads back as another type",
    };
    return step < sizeof sentences / sizeof *sentences ? sentences[step] : "this is no step";
}

/*
 * Rewrites a text: reads it into rows, prints the tree into out, microseconds as us, reads that text into back and compares
 * the two trees. It answers the step; 0 alone says that out has a text of the same type, with every name and zone.
 *
 * 0: the first *length bytes of out are the text, with no zero behind it, and the bytes behind them are as they were;
 *    *count rows stand at the start of rows, and as many, those of the text in out, at the start of back, and the words
 *    behind them are as they were; *number and *place are 0.
 * 1: *number is 1 to 16, and *place is where in the text, as arrow_types_read says; rows are all 0, out and back are as
 *    they were.
 * 2: *number is 18 or 19, and *place is 0; the rows of the text stand in rows, out and back are as they were.
 * 3: *number is 1 to 16, and *place is where in the printed text; out and back are all 0. arrow_types_print prints that text
 *    anew, from the rows.
 * 4: *number and *place are 0; out is all 0, and back holds the rows that were read back.
 *
 * In all of 1 to 4 *length and *count are 0.
 *
 * A name or zone that prints in double quotes and holds a double quote mark, a backslash, a control character, U+00A0 or
 * U+00AD does not stay as it is: such a text ends with 3 or 4.
 *
 * Lend ARROW_TYPES_MAX_ROWS rows in rows and in back, and ARROW_TYPES_MAX_TEXT bytes: these are enough for every text. With
 * fewer rows one may be refused with 4, and with fewer bytes with 19. rows, out and back are no part of one another.
 */
uint32_t arrow_types_rewrite(const uint8_t *text, size_t text_length,
                             uint32_t *rows, size_t rows_length,
                             uint8_t *out, size_t out_length,
                             uint32_t *back, size_t back_length,
                             size_t *length, size_t *count, uint32_t *number, size_t *place);

/* The same, but microseconds are printed with the micro sign, as by arrow_types_print_micro. */
uint32_t arrow_types_rewrite_micro(const uint8_t *text, size_t text_length,
                                   uint32_t *rows, size_t rows_length,
                                   uint8_t *out, size_t out_length,
                                   uint32_t *back, size_t back_length,
                                   size_t *length, size_t *count, uint32_t *number, size_t *place);

/* Whether a tree is sound: 1 or 0. Every tree that was read is. */
uint32_t arrow_types_is_sound(const uint8_t *text, size_t text_length,
                              const uint8_t *names, size_t names_length,
                              const uint32_t *rows, size_t rows_length);

/*
 * The depth of a tree.
 *
 * 0: *depth is 1 to 64; the root is at level 1.
 * 17: the tree is not sound; *depth is 0.
 */
uint32_t arrow_types_depth(const uint8_t *text, size_t text_length,
                           const uint8_t *names, size_t names_length,
                           const uint32_t *rows, size_t rows_length, size_t *depth);

/*
 * Whether two trees are equal: 1 or 0. Words 0 to 5, the bytes of the names and the bytes of the zones count, row by
 * row; where they stand does not, and parents are not looked at, since the other words fix them in a sound tree.
 * Soundness is not asked.
 */
uint32_t arrow_types_equal(const uint8_t *text, size_t text_length,
                           const uint8_t *names, size_t names_length,
                           const uint32_t *rows, size_t rows_length,
                           const uint8_t *text2, size_t text2_length,
                           const uint8_t *names2, size_t names2_length,
                           const uint32_t *rows2, size_t rows2_length);

/*
 * Whether the Arrow columnar format can lay a tree out: the layout verdict.
 *
 * 0: *yes is 1 and *row is 0; or *yes is 0 and *row is the first row, from 0, that breaks a rule.
 * 17: the tree is not sound; *yes and *row are 0.
 *
 * The rules: a dictionary key is Int8 to Int64 or UInt8 to UInt64; run ends are Int16, Int32 or Int64.
 */
uint32_t arrow_types_verdict(const uint8_t *text, size_t text_length,
                             const uint8_t *names, size_t names_length,
                             const uint32_t *rows, size_t rows_length,
                             uint32_t *yes, size_t *row);

/*
 * A column that is needed. The names of all needs stand in one text of needs, which need not be UTF-8 and in which they may
 * overlap.
 */
struct arrow_types_need {
    uint32_t name_start;  /* where the name starts in the text of needs */
    uint32_t name_length; /* in bytes, 1 or more */
    uint32_t kind;        /* word 0 of the field's row */
    uint32_t number;      /* word 4: unit, length, precision, mode or sorted; 0 where the kind has none */
    uint32_t scale;       /* word 5: a decimal's scale plus 128; 0 for other kinds */
    bool null_allowed;    /* whether null is allowed; a non-null field is then as good as a nullable one */
    bool zoned;           /* whether a zone must stand; where it is false none may */
};

/*
 * Whether a tree has the columns that are needed: the slot file's own check.
 *
 * 0: *yes is 1 and *need is 0; or *yes is 0 and *need is the first need, from 0, that is not met.
 * 17: the tree is not sound; 25: its root is not a Struct; 26: there are more than ARROW_TYPES_MAX_NEEDS needs; 27: some
 *    need's name is empty or outside the text of needs. The first of these counts, before any answer; *yes and *need are 0.
 *
 * A need is met by the root's one field of its name: kind and both numbers are equal, the field is non-null unless null is
 * allowed, and a zone is present exactly when asked for, whichever it is. A name that no field has fails, and so does one
 * that two fields have. Names are compared by their bytes, from the text and from the name list alike. What a field contains
 * is not looked at. With no needs the answer is yes.
 */
uint32_t arrow_types_needs(const uint8_t *text, size_t text_length,
                           const uint8_t *names, size_t names_length,
                           const uint32_t *rows, size_t rows_length,
                           const uint8_t *needs_text, size_t needs_text_length,
                           const struct arrow_types_need *needs, size_t needs_length,
                           uint32_t *yes, size_t *need);

/*
 * Takes a column out of a tree whose root is a Struct: the field of a number, from 0, with all that stands below it. What
 * stays is a tree of its own, in rows_left over text_left, which hold nothing of what was taken out.
 *
 * 0: the first ARROW_TYPES_ROW_WORDS * *count words of rows_left are the rows of the Struct of the other fields, in order, and
 *    the first *length bytes of text_left are their text, with no zero behind it; what stands behind both is as it was. The
 *    text is the names and zones end to end, by rows, the name before the zone; names from the name list stand in it too.
 *    That tree is sound. Without its only field the Struct is empty: 1 row, and no byte.
 * 17: the tree is not sound; 25: its root is not a Struct; 29: it has no such field; 28: there are too few words for the
 *    rows, or too few bytes for the text, or it would be longer than ARROW_TYPES_MAX_TEXT. The first of these counts;
 *    *count and *length are 0, and nothing else is changed.
 *
 * As many words as rows_length and ARROW_TYPES_MAX_TEXT bytes are as much as is ever used. The text may be longer than the
 * tree's own, where names overlap in that or stand in the name list. Words that make no whole row are not used.
 */
uint32_t arrow_types_take_column_out(const uint8_t *text, size_t text_length,
                                     const uint8_t *names, size_t names_length,
                                     const uint32_t *rows, size_t rows_length,
                                     size_t field,
                                     uint32_t *rows_left, size_t rows_left_length,
                                     uint8_t *text_left, size_t text_left_length,
                                     size_t *count, size_t *length);

/*
 * Writes a tree's image: the bytes of its archive record, which has the records of its children in it.
 *
 * 0: the first *length bytes of out are the image, and the bytes behind them are as they were.
 * 17: the tree is not sound; 28: the image is longer than out. The first of these counts; *length is 0, and out is as it was.
 *
 * An image has ARROW_TYPES_RECORD_BYTES bytes for each row, and the bytes of all names and zones: of a tree that was read,
 * ARROW_TYPES_RECORD_BYTES for each row and text_length more are enough. Equal trees have one image, whatever their texts. A record
 * is, each number with its lowest byte first:
 *
 *     4  length of the record, these 4 bytes and the children's records included
 *     2  word 0, the kind
 *     1  word 2, the role
 *     1  word 3, the union id
 *     4  word 4
 *     1  word 5
 *     2  length of the name, and then the name
 *     2  length of the zone, and then the zone
 *        the children's records, in order
 */
uint32_t arrow_types_to_archive(const uint8_t *text, size_t text_length,
                                const uint8_t *names, size_t names_length,
                                const uint32_t *rows, size_t rows_length,
                                uint8_t *out, size_t out_length, size_t *length);

/*
 * Reads an image into lent rows, over a lent text.
 *
 * 0: the first ARROW_TYPES_ROW_WORDS * *count words of rows are the rows, and the first *length bytes of text are their text,
 *    with no zero behind it; what stands behind both is as it was. The text is the names and zones end to end, by rows, the name
 *    before the zone. The tree is sound, its name list is ARROW_TYPES_NAMES, and it has this image and no other.
 * 30: a length is not whole, runs past its record, its parent's record or the image, or is under 17 for a record; 31: there is no
 *    such kind; 28: there are too few words for a row, or too few bytes for a name or a zone, or they would be more than
 *    ARROW_TYPES_MAX_ROWS rows or ARROW_TYPES_MAX_TEXT bytes. Of these the first in the image counts; then 30 once more, bytes
 *    stand behind the root's record; then 17: what is read is no sound tree. *count and *length are 0, and all words of rows and
 *    all bytes of text are 0.
 *
 * A record is judged in this order: its length, its kind, a row for it, the name's length and then room for the name, the zone's
 * length and then room for the zone, its children. Any bytes may be lent as an image, however deep they nest. Words that make no
 * whole row are not used. image_length / ARROW_TYPES_RECORD_BYTES rows and image_length bytes of text are enough for every image.
 */
uint32_t arrow_types_from_archive(const uint8_t *image, size_t image_length,
                                  uint32_t *rows, size_t rows_length,
                                  uint8_t *text, size_t text_length,
                                  size_t *count, size_t *length);

/*
 * Keeps a tree's rows in 16-bit words, ARROW_TYPES_HALF_ROW_WORDS to a row: its words in order, word 4 as its low half and then
 * its high half. They are for keeping; arrow_types_from_half_rows brings them back. The text stays beside them, since they hold
 * places in it.
 *
 * 0: the first ARROW_TYPES_HALF_ROW_WORDS * *count half words are the rows; what stands behind them is as it was.
 * 17: the tree is not sound; 28: there are too few half words for it. The first of these counts; *count is 0, and nothing else
 *    is changed.
 */
uint32_t arrow_types_to_half_rows(const uint8_t *text, size_t text_length,
                                  const uint8_t *names, size_t names_length,
                                  const uint32_t *rows, size_t rows_length,
                                  uint16_t *halves, size_t halves_length, size_t *count);

/*
 * Brings rows in halves back, over the text and the name list that they were kept with. Halves are checked as rows are: any half
 * words may be lent, just those that were filled.
 *
 * 0: the first ARROW_TYPES_ROW_WORDS * *count words of rows are a sound tree, word for word the one that was kept; what stands
 *    behind them is as it was.
 * 17: the half words are no whole rows, or the rows are not a sound tree over text and name list; 28: there are too few words
 *    for them. The first of these counts; *count is 0, and nothing else is changed.
 */
uint32_t arrow_types_from_half_rows(const uint8_t *text, size_t text_length,
                                    const uint8_t *names, size_t names_length,
                                    const uint16_t *halves, size_t halves_length,
                                    uint32_t *rows, size_t rows_length, size_t *count);

/*
 * Where a field's name is; home, start and size are words 6 to 8 of its row.
 *
 * 1: in the text, *name_length bytes from *name_start.
 * 2: in the name list, likewise.
 * 0: the name is empty, as it is where the words do not fit; *name_start and *name_length are 0.
 */
uint32_t arrow_types_name(const uint8_t *text, size_t text_length,
                          const uint8_t *names, size_t names_length,
                          uint32_t home, uint32_t start, uint32_t size,
                          size_t *name_start, size_t *name_length);

/*
 * Where a row's zone is; start and size are words 9 and 10 of its row.
 *
 * 1: in the text, *zone_length bytes from *zone_start.
 * 0: there is none, as where the words do not fit; *zone_start and *zone_length are 0.
 */
uint32_t arrow_types_zone(const uint8_t *text, size_t text_length,
                          uint32_t start, uint32_t size,
                          size_t *zone_start, size_t *zone_length);

/*
 * Sets the parents of rows, word 11, of as many as the words hold, ARROW_TYPES_MAX_ROWS at the most: each to the row
 * that it stands under, which is the last row before it whose subtree holds it by word 1, and to 0 where none does. All
 * other words are as they were. Soundness is not asked.
 *
 * It is for rows that a caller puts together, and for rows that were stored when a row had eleven words, which are not
 * sound now: copy the eleven words of each row to the start of twelve, and call this.
 */
void arrow_types_set_parents(uint32_t *rows, size_t rows_length);

#ifdef __cplusplus
}
#endif

#endif
