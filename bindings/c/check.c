/* Calls every function of the header and checks what it answers and what it leaves as it was. Its argument is the folder of the
 * golden files, bindings/images. The last line says how many checks there were; the status is 1 if one failed. */

#include "arrow_types.h"

#include <stdio.h>
#include <string.h>

#define WORDS (ARROW_TYPES_MAX_ROWS * ARROW_TYPES_ROW_WORDS)

static unsigned checks, failures;

static void check(int holds, const char *what, int line)
{
    checks++;
    if (!holds) {
        failures++;
        printf("line %d: %s\n", line, what);
    }
}

#define CHECK(condition) check((condition) != 0, #condition, __LINE__)

/* A tree: a text, the name list and the rows filled. */
struct tree {
    const uint8_t *text;
    size_t length;
    uint32_t rows[WORDS];
    size_t words;
};

/* A tree as the first arguments of a call. */
#define NAMES (const uint8_t *)ARROW_TYPES_NAMES, (size_t)ARROW_TYPES_NAMES_LENGTH
#define TREE(tree) (tree)->text, (tree)->length, NAMES, (tree)->rows, (tree)->words

/* Where the last text was refused. */
static size_t place;

/* Reads so many bytes into so many words, from a count and a place that no call answers. */
static uint32_t read_into(const char *text, size_t length, uint32_t *rows, size_t words, size_t *count)
{
    *count = SIZE_MAX;
    place = SIZE_MAX;
    return arrow_types_read((const uint8_t *)text, length, rows, words, count, &place);
}

static uint32_t read_text(struct tree *tree, const char *text)
{
    size_t count;
    tree->text = (const uint8_t *)text;
    tree->length = strlen(text);
    uint32_t status = read_into(text, tree->length, tree->rows, WORDS, &count);
    tree->words = count * ARROW_TYPES_ROW_WORDS;
    return status;
}

/* Whether so many words from a place on have a value. */
static int all(const uint32_t *words, size_t count, uint32_t value)
{
    for (size_t i = 0; i < count; i++)
        if (words[i] != value)
            return 0;
    return 1;
}

static void fill(uint32_t *words, uint32_t value)
{
    for (size_t i = 0; i < WORDS; i++)
        words[i] = value;
}

static struct tree a, b;

static void reading(void)
{
    fill(a.rows, 7);
    CHECK(read_text(&a, "List(Timestamp(ms, \"CET\"))") == 0);
    static const uint32_t expected[2 * ARROW_TYPES_ROW_WORDS] = {
        27, 2, 0, 0, 0, 0, 0, 0, 0, 0, 0, 0, 13, 1, 1, 0, 1, 0, 2, 0, 4, 20, 3, 0};
    CHECK(a.words == 2 * ARROW_TYPES_ROW_WORDS);
    CHECK(memcmp(a.rows, expected, sizeof expected) == 0);
    CHECK(all(a.rows + a.words, WORDS - a.words, 7));
    CHECK(place == 0);

    CHECK(read_text(&a, "Time32(us)") == ARROW_TYPES_WRONG_TIME_UNIT);
    CHECK(place == 7);
    CHECK(a.words == 0);
    CHECK(all(a.rows, WORDS, 0));

    size_t count;
    CHECK(read_into("Int8", 4, a.rows, ARROW_TYPES_ROW_WORDS - 1, &count) == ARROW_TYPES_TOO_MANY_ROWS);
    CHECK(read_into("Int8", 4, a.rows, ARROW_TYPES_ROW_WORDS, &count) == 0);
    CHECK(count == 1);
    CHECK(read_into("", 0, a.rows, WORDS, &count) == ARROW_TYPES_TEXT_ENDS);
    CHECK(read_into("\xff", 1, a.rows, WORDS, &count) == ARROW_TYPES_NOT_UTF8);
    CHECK(read_into("Int8", 4, a.rows, 0, &count) == ARROW_TYPES_TOO_MANY_ROWS);
    CHECK(count == 0);
}

/* Whether a text is refused with a number at a place, with 1,024 rows lent. */
static int refused_at(const char *text, uint32_t number, size_t expected)
{
    return read_text(&a, text) == number && place == expected;
}

/* The same with so many rows lent, where these run out. */
static int short_of_rows_at(const char *text, size_t rows, size_t expected)
{
    size_t count;
    uint32_t status = read_into(text, strlen(text), a.rows, rows * ARROW_TYPES_ROW_WORDS, &count);
    return status == ARROW_TYPES_TOO_MANY_ROWS && place == expected;
}

static void places(void)
{
    static char text[ARROW_TYPES_MAX_TEXT + 2];
    memset(text, ' ', ARROW_TYPES_MAX_TEXT + 1);
    CHECK(refused_at(text, ARROW_TYPES_TEXT_TOO_LONG, ARROW_TYPES_MAX_TEXT));
    text[ARROW_TYPES_MAX_TEXT] = 0;
    CHECK(refused_at(text, ARROW_TYPES_TEXT_ENDS, ARROW_TYPES_MAX_TEXT));
    for (int level = 0; level < 64; level++)
        memcpy(text + 5 * level, "List(", 5);
    strcpy(text + 5 * 64, "nullable @");
    CHECK(refused_at(text, ARROW_TYPES_TOO_DEEP, 329));
    CHECK(refused_at("\xff", ARROW_TYPES_NOT_UTF8, 0));
    CHECK(refused_at("List(\xff", ARROW_TYPES_NOT_UTF8, 0));
    CHECK(short_of_rows_at(" @", 0, 1));
    CHECK(short_of_rows_at("  ", 0, 2));
    CHECK(short_of_rows_at("List(Int8)", 1, 5));

    CHECK(refused_at("  ", ARROW_TYPES_TEXT_ENDS, 2));
    CHECK(refused_at("Timestamp(s, \"CET)", ARROW_TYPES_STRING_NEVER_ENDS, 13));
    CHECK(refused_at("Timestamp(s,  \"\")", ARROW_TYPES_STRING_EMPTY, 14));
    CHECK(refused_at("List( @)", ARROW_TYPES_UNKNOWN_WORD, 6));
    CHECK(refused_at("List(\"a\")", ARROW_TYPES_UNEXPECTED_TOKEN, 5));
    CHECK(refused_at("FixedSizeBinary( -1)", ARROW_TYPES_NUMBER_OUT_OF_RANGE, 17));
    CHECK(refused_at("Decimal32(9, 10)", ARROW_TYPES_WRONG_DECIMAL, 15));
    CHECK(refused_at("RunEndEncoded(Int32, Utf8)", ARROW_TYPES_MUST_BE_NON_NULL, 13));
    CHECK(refused_at("RunEndEncoded( nullable Int8", ARROW_TYPES_MUST_BE_NON_NULL, 15));
    CHECK(refused_at("Map(\"e\": non-null Int8, sorted)", ARROW_TYPES_WRONG_MAP_ENTRIES, 18));
    CHECK(refused_at("Union(Dense, 0: (\"a\": Int8), 0: (\"b\": Int8) )", ARROW_TYPES_WRONG_UNION_ID, 44));
    CHECK(refused_at("Int32 \"", ARROW_TYPES_TRAILING_TEXT, 6));
}

/* What a Struct of so many leaves gives in a buffer that held 1,024 rows of eleven words. */
static uint32_t read_leaves(unsigned leaves, size_t *count)
{
    enum { WORDS_OF_ELEVEN = 11 * ARROW_TYPES_MAX_ROWS };
    static char text[ARROW_TYPES_MAX_TEXT];
    size_t length = (size_t)sprintf(text, "Struct(");
    for (unsigned i = 0; i < leaves; i++)
        length += (size_t)sprintf(text + length, "\"a\":Int8,");
    length += (size_t)sprintf(text + length, ")");
    return read_into(text, length, a.rows, WORDS_OF_ELEVEN, count);
}

/* Whether a text is read with rows_to_lend rows, so many, as it is with 1,024, and the words behind are as they were. */
static int lends(const char *text, size_t lent)
{
    size_t count;
    size_t words = lent * ARROW_TYPES_ROW_WORDS;
    uint32_t status = read_text(&a, text);
    fill(b.rows, 7);
    return arrow_types_rows_to_lend(a.length) == lent
        && read_into(text, a.length, b.rows, words, &count) == 0
        && status == 0 && count * ARROW_TYPES_ROW_WORDS == a.words
        && memcmp(a.rows, b.rows, a.words * sizeof *a.rows) == 0
        && all(b.rows + a.words, WORDS - a.words, 7);
}

static void lending(void)
{
    CHECK(lends("Int8", 1));
    CHECK(lends("Struct()", 1));
    CHECK(lends("List(List(Int8))", 3));
    CHECK(lends("Map(\"e\": non-null Struct(\"k\": non-null Utf8, \"v\": Int8), sorted)", 13));

    CHECK(arrow_types_rows_to_lend(0) == 0);
    CHECK(arrow_types_rows_to_lend(3) == 0);
    CHECK(arrow_types_rows_to_lend(5118) == 1023);
    CHECK(arrow_types_rows_to_lend(5119) == ARROW_TYPES_MAX_ROWS);
    CHECK(arrow_types_rows_to_lend(ARROW_TYPES_MAX_TEXT) == ARROW_TYPES_MAX_ROWS);
    CHECK(arrow_types_rows_to_lend(SIZE_MAX) == ARROW_TYPES_MAX_ROWS);

    size_t count;
    CHECK(read_into("", 0, a.rows, 0, &count) == ARROW_TYPES_TOO_MANY_ROWS);
    CHECK(count == 0);

    /* A buffer that held 1,024 rows of eleven words. */
    CHECK(read_leaves(937, &count) == 0);
    CHECK(count == 938);
    CHECK(read_leaves(938, &count) == ARROW_TYPES_TOO_MANY_ROWS);
    CHECK(count == 0);
}

static void printing(void)
{
    uint8_t out[40];
    size_t length = 99;
    memset(out, 'x', sizeof out);
    CHECK(read_text(&a, "FixedSizeList(4, Int32)") == 0);
    CHECK(arrow_types_print(TREE(&a), out, sizeof out, &length) == 0);
    CHECK(length == 24);
    CHECK(memcmp(out, "FixedSizeList(4 x Int32)xxxxxxxxxxxxxxxx", sizeof out) == 0);

    memset(out, 'x', sizeof out);
    CHECK(arrow_types_print(TREE(&a), out, 23, &length) == ARROW_TYPES_PRINT_TOO_LONG);
    CHECK(length == 0);
    CHECK(out[0] == 'x');
    CHECK(arrow_types_print(TREE(&a), out, 24, &length) == 0);

}

/* What is lent to print a name stands in more bytes, which must stay as they were. */
enum { AROUND = 64, LONGEST_NAME = 70, ROOM = 2 * AROUND + 32 + 6 * LONGEST_NAME };

static uint8_t room[ROOM];

static int untouched(const uint8_t *bytes, size_t count)
{
    for (size_t i = 0; i < count; i++)
        if (bytes[i] != 'x')
            return 0;
    return 1;
}

/* A Struct of one Int8 field, whose name is the whole text. */
static void name_field(struct tree *tree, const char *name, size_t length)
{
    static const uint32_t root[ARROW_TYPES_ROW_WORDS] = {32, 2};
    const uint32_t field[ARROW_TYPES_ROW_WORDS] = {2, 1, 1, 0, 0, 0, 1, 0, (uint32_t)length, 0, 0, 0};
    tree->text = (const uint8_t *)name;
    tree->length = length;
    tree->words = 2 * ARROW_TYPES_ROW_WORDS;
    memcpy(tree->rows, root, sizeof root);
    memcpy(tree->rows + ARROW_TYPES_ROW_WORDS, field, sizeof field);
}

/* Its printed text, and how long that is. */
static size_t expect_name(char *text, const char *name, size_t length)
{
    size_t at = (size_t)sprintf(text, "Struct(\"");
    for (size_t i = 0; i < length; i++)
        if (name[i] == '\t')
            at += (size_t)sprintf(text + at, "\\t");
        else if (name[i] == '"')
            at += (size_t)sprintf(text + at, "\\\"");
        else if (name[i] == '\x1f')
            at += (size_t)sprintf(text + at, "\\u{1f}");
        else if (i + 1 < length && memcmp(name + i, "\xc2\xa0", 2) == 0) {
            at += (size_t)sprintf(text + at, "\\u{a0}");
            i++;
        } else
            text[at++] = name[i];
    return at + (size_t)sprintf(text + at, "\": Int8)");
}

/* Whether a name prints into so many bytes more than it needs, and nothing behind it or around what is lent changes. */
static int stays_inside(const char *name, size_t length, size_t more)
{
    static char expected[ROOM];
    size_t printed = 99, size = expect_name(expected, name, length);
    name_field(&a, name, length);
    memset(room, 'x', sizeof room);
    return arrow_types_print(TREE(&a), room + AROUND, size + more, &printed) == 0
        && printed == size && memcmp(room + AROUND, expected, size) == 0
        && untouched(room, AROUND) && untouched(room + AROUND + size, sizeof room - AROUND - size);
}

/* Whether a name is refused where a byte is missing, and nothing changes. */
static int is_refused_whole(const char *name, size_t length)
{
    static char expected[ROOM];
    size_t printed = 99, size = expect_name(expected, name, length);
    name_field(&a, name, length);
    memset(room, 'x', sizeof room);
    return arrow_types_print(TREE(&a), room + AROUND, size - 1, &printed) == ARROW_TYPES_PRINT_TOO_LONG
        && printed == 0 && untouched(room, sizeof room);
}

/* Names of each length, with an escape or a character of two bytes at each place. */
static void printing_names(void)
{
    static const char *const odd[] = {"\t", "\"", "\x1f", "\xc2\xa0", "\xc3\xbc", "\xc5\xbf"};
    char name[LONGEST_NAME];
    for (size_t length = 1; length <= LONGEST_NAME; length++)
        for (size_t i = 0; i < sizeof odd / sizeof odd[0]; i++)
            for (size_t place = 0; place + strlen(odd[i]) <= length; place++) {
                memset(name, 'n', sizeof name);
                CHECK(stays_inside(name, length, 0));
                memcpy(name + place, odd[i], strlen(odd[i]));
                CHECK(stays_inside(name, length, 0));
                CHECK(stays_inside(name, length, AROUND));
                CHECK(is_refused_whole(name, length));
            }
}

/* Whether a Struct of one field whose name has so many bytes prints as another text. */
static int name_prints(const char *name, size_t length, const char *expected)
{
    uint8_t out[40];
    size_t printed = 99;
    name_field(&a, name, length);
    return arrow_types_print(TREE(&a), out, sizeof out, &printed) == 0
        && printed == strlen(expected) && memcmp(out, expected, printed) == 0;
}

/* Characters above 127 in double quotes: U+00A1 to U+017F but for U+00AD are themselves, those above are refused. */
static void characters(void)
{
    uint8_t out[40];
    size_t length = 99;
    CHECK(name_prints("K\xc3\xbc" "che", 6, "Struct(\"K\xc3\xbc" "che\": Int8)"));
    CHECK(name_prints("\xc2\xa1", 2, "Struct(\"\xc2\xa1\": Int8)"));
    CHECK(name_prints("\xc5\xbf", 2, "Struct(\"\xc5\xbf\": Int8)"));
    CHECK(name_prints("a\xc3\xbf", 3, "Struct(\"a\xc3\xbf\": Int8)"));
    CHECK(name_prints("\xc2\x80", 2, "Struct(\"\\u{80}\": Int8)"));
    CHECK(name_prints("\xc2\xa0", 2, "Struct(\"\\u{a0}\": Int8)"));
    CHECK(name_prints("\xc2\xad", 2, "Struct(\"\\u{ad}\": Int8)"));

    memset(out, 'x', sizeof out);
    name_field(&a, "\xc6\x80", 2);
    CHECK(arrow_types_print(TREE(&a), out, sizeof out, &length) == ARROW_TYPES_NOT_LATIN);
    CHECK(length == 0 && out[0] == 'x');
    CHECK(read_text(&a, "List(Int8, field: '\xc6\x80')") == 0);
    CHECK(arrow_types_print(TREE(&a), out, sizeof out, &length) == 0);
    CHECK(length == 23 && memcmp(out, "List(Int8, field: '\xc6\x80')x", 24) == 0);
}

/* Whether a text is read and printed as two others, the second with the micro sign, the bytes C2 B5. */
static int prints(const char *text, const char *plain, const char *micro)
{
    uint8_t out[40];
    size_t length = 99;
    if (read_text(&a, text) != 0)
        return 0;
    if (arrow_types_print(TREE(&a), out, sizeof out, &length) != 0)
        return 0;
    if (length != strlen(plain) || memcmp(out, plain, length) != 0)
        return 0;
    return arrow_types_print_micro(TREE(&a), out, sizeof out, &length) == 0
        && length == strlen(micro) && memcmp(out, micro, length) == 0;
}

static void spelling(void)
{
    CHECK(prints("Timestamp(us)", "Timestamp(us)", "Timestamp(\xc2\xb5s)"));
    CHECK(prints("Duration(Microsecond)", "Duration(us)", "Duration(\xc2\xb5s)"));
    CHECK(prints("Time64(\xc2\xb5s)", "Time64(us)", "Time64(\xc2\xb5s)"));
    CHECK(prints("Time64(ns)", "Time64(ns)", "Time64(ns)"));
    CHECK(prints("List(Int8, field: '\xc2\xb5s')", "List(Int8, field: '\xc2\xb5s')", "List(Int8, field: '\xc2\xb5s')"));
    CHECK(prints("Struct(\"\xc2\xb5s\": Int8)", "Struct(\"\xc2\xb5s\": Int8)", "Struct(\"\xc2\xb5s\": Int8)"));

    /* With 13 bytes lent the default fits, and the other does not. */
    uint8_t out[20];
    size_t length = 99;
    memset(out, 'x', sizeof out);
    CHECK(read_text(&a, "Timestamp(us)") == 0);
    CHECK(arrow_types_print_micro(TREE(&a), out, 13, &length) == ARROW_TYPES_PRINT_TOO_LONG);
    CHECK(length == 0 && out[0] == 'x');
    CHECK(arrow_types_print(TREE(&a), out, 13, &length) == 0);
    CHECK(length == 13 && memcmp(out, "Timestamp(us)xxxxxxx", sizeof out) == 0);
    memset(out, 'x', sizeof out);
    CHECK(arrow_types_print_micro(TREE(&a), out, 14, &length) == 0);
    CHECK(length == 14 && memcmp(out, "Timestamp(\xc2\xb5s)xxxxxx", sizeof out) == 0);

    /* The other refusals are those of the default. */
    CHECK(read_text(&a, "Struct(\"\xc6\x80\": Int8)") == 0);
    CHECK(arrow_types_print(TREE(&a), out, sizeof out, &length) == ARROW_TYPES_NOT_LATIN);
    CHECK(arrow_types_print_micro(TREE(&a), out, sizeof out, &length) == ARROW_TYPES_NOT_LATIN);
    a.rows[ARROW_TYPES_WORD_KIND] = 41;
    CHECK(arrow_types_print_micro(TREE(&a), out, sizeof out, &length) == ARROW_TYPES_NOT_SOUND);
    CHECK(length == 0);
}

/* A text of 16,384 bytes in the default is too long in the other spelling. */
static void longest(void)
{
    static char text[ARROW_TYPES_MAX_TEXT + 1];
    static uint8_t out[ARROW_TYPES_MAX_TEXT + 1];
    const char *end = "\": Timestamp(us))";
    size_t length = 99;
    memset(text, 'a', ARROW_TYPES_MAX_TEXT);
    memcpy(text, "Struct(\"", strlen("Struct(\""));
    strcpy(text + ARROW_TYPES_MAX_TEXT - strlen(end), end);
    CHECK(read_text(&a, text) == 0);
    CHECK(arrow_types_print(TREE(&a), out, sizeof out, &length) == 0);
    CHECK(length == ARROW_TYPES_MAX_TEXT && memcmp(out, text, length) == 0);
    CHECK(arrow_types_print_micro(TREE(&a), out, sizeof out, &length) == ARROW_TYPES_PRINT_TOO_LONG);
    CHECK(length == 0);
}

/* What a rewrite answers. It works in the rows of a, in rewritten and in the rows of b, which are filled before each. */
static uint8_t rewritten[ARROW_TYPES_MAX_TEXT];

static struct {
    size_t length, count, place;
    uint32_t number;
} done;

enum { US, MICRO };

/* The words of rows and of back, and the bytes, that are lent. */
struct lent {
    size_t rows, bytes, back;
};

static const struct lent all_of_it = {WORDS, sizeof rewritten, WORDS};

static uint32_t rewrite(int spelling, const char *text, struct lent lent)
{
    fill(a.rows, 7);
    fill(b.rows, 7);
    memset(rewritten, 'x', sizeof rewritten);
    done.length = done.count = done.place = SIZE_MAX;
    done.number = 99;
    a.text = (const uint8_t *)text;
    a.length = strlen(text);
    return (spelling == MICRO ? arrow_types_rewrite_micro : arrow_types_rewrite)(
        a.text, a.length, a.rows, lent.rows, rewritten, lent.bytes, b.rows, lent.back, &done.length,
        &done.count, &done.number, &done.place);
}

/* Whether the bytes from a place on have a value. */
static int all_bytes(size_t from, uint8_t value)
{
    for (size_t i = from; i < sizeof rewritten; i++)
        if (rewritten[i] != value)
            return 0;
    return 1;
}

/* Whether a text is read and the rows are so many and those at the start of a buffer, before words as they were. */
static int has_rows(const uint8_t *text, size_t text_length, const uint32_t *rows)
{
    static struct tree tree;
    size_t filled, at;
    uint32_t status = arrow_types_read(text, text_length, tree.rows, WORDS, &filled, &at);
    size_t words = filled * ARROW_TYPES_ROW_WORDS;
    return status == 0 && memcmp(rows, tree.rows, words * sizeof *rows) == 0 && all(rows + words, WORDS - words, 7);
}

/* Whether a text is rewritten as another, with the rows of the first in a and of the second in b. */
static int is_rewritten(int spelling, const char *text, const char *expected, size_t count)
{
    return rewrite(spelling, text, all_of_it) == ARROW_TYPES_REWRITTEN
        && done.length == strlen(expected) && memcmp(rewritten, expected, done.length) == 0 && all_bytes(done.length, 'x')
        && done.count == count && has_rows(a.text, a.length, a.rows) && has_rows(rewritten, done.length, b.rows)
        && done.number == 0 && done.place == 0;
}

/* Whether a text is not rewritten: the step, the number and the place, with no length and no count. */
static int stops_in(int spelling, struct lent lent, const char *text, uint32_t step, uint32_t number, size_t at)
{
    return rewrite(spelling, text, lent) == step && done.number == number && done.place == at
        && done.length == 0 && done.count == 0;
}

static int stops(struct lent lent, const char *text, uint32_t step, uint32_t number, size_t at)
{
    return stops_in(US, lent, text, step, number, at) && stops_in(MICRO, lent, text, step, number, at);
}

static void rewriting(void)
{
    CHECK(is_rewritten(US, "Timestamp(Second, Some(\"CET\"))", "Timestamp(s, \"CET\")", 1));
    CHECK(is_rewritten(US, "Struct( \"a\":List(Int8) , )", "Struct(\"a\": List(Int8))", 3));
    CHECK(is_rewritten(US, "Timestamp(Microsecond)", "Timestamp(us)", 1));
    CHECK(is_rewritten(US, "Timestamp(\xc2\xb5s)", "Timestamp(us)", 1));
    CHECK(is_rewritten(MICRO, "Timestamp(us)", "Timestamp(\xc2\xb5s)", 1));
    CHECK(is_rewritten(MICRO, "Struct(\"us\": Time64(us))", "Struct(\"us\": Time64(\xc2\xb5s))", 2));

    /* Room for just what is needed. */
    static const struct lent needed = {ARROW_TYPES_ROW_WORDS, 13, ARROW_TYPES_ROW_WORDS};
    CHECK(rewrite(US, "Timestamp(Microsecond)", needed) == ARROW_TYPES_REWRITTEN);
    CHECK(done.length == 13 && memcmp(rewritten, "Timestamp(us)x", 14) == 0 && done.count == 1);
    CHECK(rewrite(MICRO, "Timestamp(Microsecond)", needed) == ARROW_TYPES_NOT_PRINTED);
    CHECK(done.number == ARROW_TYPES_PRINT_TOO_LONG && done.length == 0 && all_bytes(0, 'x'));
}

static void not_rewriting(void)
{
    static const struct lent no_rows = {ARROW_TYPES_ROW_WORDS - 1, sizeof rewritten, WORDS};
    static const struct lent no_back = {WORDS, sizeof rewritten, ARROW_TYPES_ROW_WORDS - 1};
    CHECK(stops(all_of_it, "Time32(us)", ARROW_TYPES_NOT_READ, ARROW_TYPES_WRONG_TIME_UNIT, 7));
    CHECK(all(a.rows, WORDS, 0) && all_bytes(0, 'x') && all(b.rows, WORDS, 7));
    CHECK(stops(no_rows, " Int8", ARROW_TYPES_NOT_READ, ARROW_TYPES_TOO_MANY_ROWS, 1));
    CHECK(all(a.rows, no_rows.rows, 0) && a.rows[no_rows.rows] == 7);

    CHECK(stops(all_of_it, "Struct(\"\xc6\x80\": Int8)", ARROW_TYPES_NOT_PRINTED, ARROW_TYPES_NOT_LATIN, 0));
    CHECK(has_rows(a.text, a.length, a.rows) && all_bytes(0, 'x') && all(b.rows, WORDS, 7));

    /* A tab prints as \t, and that backslash keeps the closing mark. */
    CHECK(stops(all_of_it, "Struct(\"a\tb\": Int8)", ARROW_TYPES_NOT_READ_BACK, ARROW_TYPES_STRING_NEVER_ENDS, 7));
    CHECK(has_rows(a.text, a.length, a.rows) && all_bytes(0, 0) && all(b.rows, WORDS, 0));
    CHECK(stops(no_back, "List( Int8)", ARROW_TYPES_NOT_READ_BACK, ARROW_TYPES_TOO_MANY_ROWS, 0));
    CHECK(all_bytes(0, 0) && all(b.rows, no_back.back, 0) && b.rows[no_back.back] == 7);

    static const char different[] = "Timestamp(s, \"C\\\\\\\"ET\")";
    CHECK(stops(all_of_it, "Timestamp(s, \"C\\\"ET\")", ARROW_TYPES_DIFFERENT, 0, 0));
    CHECK(has_rows(a.text, a.length, a.rows) && all_bytes(0, 0));
    CHECK(has_rows((const uint8_t *)different, strlen(different), b.rows));
}

static void judging(void)
{
    size_t depth = 99, row = 99;
    uint32_t yes = 99;
    CHECK(read_text(&a, "Dictionary(Utf8, List(Int8))") == 0);
    CHECK(arrow_types_is_sound(TREE(&a)) == 1);
    CHECK(arrow_types_depth(TREE(&a), &depth) == 0);
    CHECK(depth == 3);
    CHECK(arrow_types_verdict(TREE(&a), &yes, &row) == 0);
    CHECK(yes == 0 && row == 1);
    a.rows[ARROW_TYPES_ROW_WORDS + ARROW_TYPES_WORD_KIND] = ARROW_TYPES_KIND_UINT64;
    CHECK(arrow_types_verdict(TREE(&a), &yes, &row) == 0);
    CHECK(yes == 1 && row == 0);

    a.rows[ARROW_TYPES_WORD_ROWS] = 3;
    CHECK(arrow_types_is_sound(TREE(&a)) == 0);
    CHECK(arrow_types_depth(TREE(&a), &depth) == ARROW_TYPES_NOT_SOUND);
    CHECK(depth == 0);
    CHECK(arrow_types_verdict(TREE(&a), &yes, &row) == ARROW_TYPES_NOT_SOUND);
    CHECK(yes == 0 && row == 0);
}

static void comparing(void)
{
    CHECK(read_text(&a, "Timestamp(s, \"CET\")") == 0);
    CHECK(read_text(&b, "Timestamp(Second, Some(\"CET\"))") == 0);
    CHECK(arrow_types_equal(TREE(&a), TREE(&b)) == 1);
    CHECK(read_text(&b, "Timestamp(s, \"EET\")") == 0);
    CHECK(arrow_types_equal(TREE(&a), TREE(&b)) == 0);
}

/* A name's place, or 0, 0 and 0. */
static int is_name(uint32_t home, uint32_t start, uint32_t size, uint32_t in, size_t at, size_t length)
{
    size_t name_start = 99, name_length = 99;
    uint32_t answer = arrow_types_name((const uint8_t *)"abc", 3, NAMES, home, start, size, &name_start, &name_length);
    return answer == in && name_start == at && name_length == length;
}

/* A zone's place, or 0, 0 and 0. */
static int is_zone(uint32_t start, uint32_t size, uint32_t found, size_t at, size_t length)
{
    size_t zone_start = 99, zone_length = 99;
    uint32_t answer = arrow_types_zone((const uint8_t *)"abc", 3, start, size, &zone_start, &zone_length);
    return answer == found && zone_start == at && zone_length == length;
}

static void naming(void)
{
    CHECK(is_zone(0, 3, 1, 0, 3));
    CHECK(is_zone(2, 1, 1, 2, 1));
    CHECK(is_zone(0, 0, 0, 0, 0));
    CHECK(is_zone(1, 3, 0, 0, 0));
    CHECK(is_zone(UINT32_MAX, UINT32_MAX, 0, 0, 0));

    CHECK(is_name(1, 0, 3, 1, 0, 3));
    CHECK(is_name(1, 1, 1, 1, 1, 1));
    CHECK(is_name(2, 4, 8, 2, 4, 8));
    CHECK(is_name(0, 0, 3, 0, 0, 0));
    CHECK(is_name(3, 0, 3, 0, 0, 0));
    CHECK(is_name(1, 1, 3, 0, 0, 0));
    CHECK(is_name(2, 12, 7, 0, 0, 0));
    CHECK(is_name(1, UINT32_MAX, UINT32_MAX, 0, 0, 0));
    CHECK(is_name(1, 1, 0, 0, 0, 0));
}

/* Whether the rows of a tree have these parents. */
static int has_parents(const struct tree *tree, const uint32_t *parents, size_t count)
{
    if (tree->words != count * ARROW_TYPES_ROW_WORDS)
        return 0;
    for (size_t i = 0; i < count; i++)
        if (tree->rows[i * ARROW_TYPES_ROW_WORDS + ARROW_TYPES_WORD_PARENT] != parents[i])
            return 0;
    return 1;
}

static void parents(void)
{
    static const uint32_t of_struct[] = {0, 0, 1, 0};
    static const uint32_t of_dictionary[] = {0, 0, 1, 1, 0};
    CHECK(read_text(&a, "Dictionary(Dictionary(Int8, Utf8), Int8)") == 0);
    CHECK(has_parents(&a, of_dictionary, 5));
    CHECK(read_text(&a, "Struct(\"a\": List(Int8), \"b\": Int8)") == 0);
    CHECK(has_parents(&a, of_struct, 4));

    /* A wrong parent: the tree is not sound, and equal to the one with the right parents. */
    uint8_t out[40];
    size_t length = 99;
    b = a;
    b.rows[ARROW_TYPES_WORD_PARENT] = 1;
    CHECK(arrow_types_is_sound(TREE(&b)) == 0);
    CHECK(arrow_types_print(TREE(&b), out, sizeof out, &length) == ARROW_TYPES_NOT_SOUND);
    CHECK(arrow_types_equal(TREE(&a), TREE(&b)) == 1);
    arrow_types_set_parents(b.rows, b.words);
    CHECK(memcmp(a.rows, b.rows, sizeof a.rows) == 0);
    CHECK(arrow_types_is_sound(TREE(&b)) == 1);
}

/* Rows of eleven words, as they were stored before rows had parents, and how they get them. */
static void eleven_words(void)
{
    enum { ELEVEN = 11, ROWS = 4 };
    static uint32_t stored[ELEVEN * ROWS];
    CHECK(read_text(&a, "Struct(\"a\": List(Int8), \"b\": Int8)") == 0);
    for (size_t i = 0; i < ROWS; i++)
        memcpy(stored + ELEVEN * i, a.rows + ARROW_TYPES_ROW_WORDS * i, ELEVEN * sizeof *stored);

    b = a;
    memcpy(b.rows, stored, sizeof stored);
    b.words = ELEVEN * ROWS;
    CHECK(arrow_types_is_sound(TREE(&b)) == 0);

    fill(b.rows, 7);
    b.words = ARROW_TYPES_ROW_WORDS * ROWS;
    for (size_t i = 0; i < ROWS; i++)
        memcpy(b.rows + ARROW_TYPES_ROW_WORDS * i, stored + ELEVEN * i, ELEVEN * sizeof *stored);
    arrow_types_set_parents(b.rows, b.words);
    CHECK(arrow_types_is_sound(TREE(&b)) == 1);
    CHECK(memcmp(a.rows, b.rows, b.words * sizeof *b.rows) == 0);
    CHECK(all(b.rows + b.words, WORDS - b.words, 7));

    /* No whole row, and no words at all: nothing changes. */
    fill(b.rows, 7);
    arrow_types_set_parents(b.rows, ELEVEN);
    arrow_types_set_parents(b.rows, 0);
    CHECK(all(b.rows, WORDS, 7));
}

/* What is asked of the tree in a. The values beside those that are written must stay. */
enum { UNWRITTEN = 99 };

static uint32_t yes[3];
static size_t unmet[3];

/* Whether needs over a text get a status, and an answer: yes, or which is not met. */
static int asks(const char *text, size_t length, const struct arrow_types_need *needs, size_t count,
                uint32_t status, uint32_t is_yes, size_t which)
{
    for (size_t i = 0; i < 3; i++) {
        yes[i] = UNWRITTEN;
        unmet[i] = UNWRITTEN;
    }
    return arrow_types_needs(TREE(&a), (const uint8_t *)text, length, needs, count, &yes[1], &unmet[1]) == status
        && yes[1] == is_yes && unmet[1] == which
        && yes[0] == UNWRITTEN && yes[2] == UNWRITTEN && unmet[0] == UNWRITTEN && unmet[2] == UNWRITTEN;
}

/* Whether the tree in a meets one need, over the text of names of the needs below. */
enum { SLOT, KWH, ITEM, TEXT_OF_NAMES = 11 };

static const char names_needed[] = "slotkwhitem";

static int meets(struct arrow_types_need need)
{
    return asks(names_needed, TEXT_OF_NAMES, &need, 1, 0, 1, 0);
}

static int fails(struct arrow_types_need need)
{
    return asks(names_needed, TEXT_OF_NAMES, &need, 1, 0, 0, 0);
}

/* The columns of a slot file, and an item. */
static const struct arrow_types_need slot_file[] = {
    {0, 4, ARROW_TYPES_KIND_TIMESTAMP, 0, 0, false, true},
    {4, 3, ARROW_TYPES_KIND_DECIMAL64, 12, 3 + 128, true, false},
    {7, 4, ARROW_TYPES_KIND_INT8, 0, 0, true, false},
};

static void needing(void)
{
    CHECK(sizeof(struct arrow_types_need) == 24);
    CHECK(read_text(&a, "Struct(\"kwh\": Decimal64(12, 3), \"slot\": non-null Timestamp(s, \"CET\"), \"x\": Int8)") == 0);
    CHECK(asks(names_needed, TEXT_OF_NAMES, slot_file, 2, 0, 1, 0));
    CHECK(asks(names_needed, TEXT_OF_NAMES, slot_file, 3, 0, 0, 2));
    CHECK(asks("", 0, slot_file, 0, 0, 1, 0));

    /* Each word of a need, one at a time. */
    struct arrow_types_need need = slot_file[KWH];
    need.kind = ARROW_TYPES_KIND_DECIMAL128;
    CHECK(fails(need));
    need = slot_file[KWH];
    need.number = 13;
    CHECK(fails(need));
    need = slot_file[KWH];
    need.scale = 3;
    CHECK(fails(need));
    need = slot_file[SLOT];
    need.name_start = 1;
    CHECK(fails(need));
    need = slot_file[SLOT];
    need.name_length = 3;
    CHECK(fails(need));

    /* The first that is not met. */
    struct arrow_types_need three[] = {slot_file[KWH], slot_file[SLOT], slot_file[ITEM]};
    CHECK(asks(names_needed, TEXT_OF_NAMES, three, 3, 0, 0, 2));
    three[1].number = 1;
    CHECK(asks(names_needed, TEXT_OF_NAMES, three, 3, 0, 0, 1));
    three[0].zoned = true;
    CHECK(asks(names_needed, TEXT_OF_NAMES, three, 3, 0, 0, 0));
}

/* Whether a type meets a need whose null is allowed or not, and whose zone must stand or not: four answers. */
static int meets_by(const char *text, struct arrow_types_need need, const int answers[4])
{
    int good = read_text(&a, text) == 0;
    for (int i = 0; i < 4; i++) {
        need.null_allowed = i / 2 != 0;
        need.zoned = i % 2 != 0;
        good = good && (answers[i] ? meets(need) : fails(need));
    }
    return good;
}

static void needing_null_and_zone(void)
{
    static const int non_null[] = {1, 0, 1, 0}, nullable[] = {0, 0, 1, 0};
    static const int non_null_zone[] = {0, 1, 0, 1}, nullable_zone[] = {0, 0, 0, 1};
    CHECK(meets_by("Struct(\"slot\": non-null Timestamp(s))", slot_file[SLOT], non_null));
    CHECK(meets_by("Struct(\"slot\": Timestamp(s))", slot_file[SLOT], nullable));
    CHECK(meets_by("Struct(\"slot\": non-null Timestamp(s, \"EET\"))", slot_file[SLOT], non_null_zone));
    CHECK(meets_by("Struct(\"slot\": Timestamp(s, \"Z\"))", slot_file[SLOT], nullable_zone));
    CHECK(meets_by("Struct(\"kwh\": non-null Decimal64(12, 3))", slot_file[KWH], non_null));
}

/* A name found twice, not at all, only further down, in the text or in the name list, and one that is not UTF-8. */
static void needing_names(void)
{
    struct arrow_types_need item = slot_file[ITEM];
    CHECK(read_text(&a, "Struct(\"item\": Int8)") == 0);
    CHECK(meets(item));
    CHECK(read_text(&a, "Struct(\"item\": Int8, \"item\": Int8)") == 0);
    CHECK(fails(item));
    CHECK(read_text(&a, "Struct(\"item\": Int8, \"b\": Utf8, \"item\": Utf8)") == 0);
    CHECK(fails(item));
    CHECK(read_text(&a, "Struct(\"items\": Int8, \"ite\": Int8)") == 0);
    CHECK(fails(item));
    CHECK(read_text(&a, "Struct(\"b\": List(Int8), \"c\": Struct(\"item\": Int8))") == 0);
    CHECK(fails(item));
    CHECK(read_text(&a, "Struct(\"b\": List(Int8), \"item\": Int8, \"c\": Struct(\"item\": Int8))") == 0);
    CHECK(meets(item));

    /* The second field has its name from the name list, the first from the text. */
    static const uint32_t rows[] = {32, 3, 0, 0, 0, 0, 0, 0, 0, 0, 0, 0, 2, 1, 1, 0, 0, 0, 1, 0, 4, 0, 0, 0,
                                    2, 1, 1, 0, 0, 0, 2, 0, 4, 0, 0, 0};
    a = (struct tree){.text = (const uint8_t *)"other", .length = 5, .words = sizeof rows / sizeof *rows};
    memcpy(a.rows, rows, sizeof rows);
    CHECK(meets(item));
    a.text = (const uint8_t *)"items";
    CHECK(fails(item));

    struct arrow_types_need odd = {0, 1, ARROW_TYPES_KIND_INT8, 0, 0, true, false};
    CHECK(asks("\xff", 1, &odd, 1, 0, 0, 0));
    CHECK(read_text(&a, "Struct(\"\xc3\xbc\": Int8)") == 0);
    CHECK(asks("\xc3\xbc", 2, &odd, 1, 0, 0, 0));
    odd.name_length = 2;
    CHECK(asks("\xc3\xbc\xff", 3, &odd, 1, 0, 1, 0));
}

/* 32 needs and 33, and names that are empty or outside their text, behind a need that is not met. */
static void needing_too_much(void)
{
    struct arrow_types_need needs[ARROW_TYPES_MAX_NEEDS + 1];
    for (size_t i = 0; i <= ARROW_TYPES_MAX_NEEDS; i++)
        needs[i] = slot_file[ITEM];
    CHECK(read_text(&a, "Struct(\"item\": Int8)") == 0);
    CHECK(asks(names_needed, TEXT_OF_NAMES, needs, ARROW_TYPES_MAX_NEEDS, 0, 1, 0));
    CHECK(asks(names_needed, TEXT_OF_NAMES, needs, ARROW_TYPES_MAX_NEEDS + 1, ARROW_TYPES_TOO_MANY_NEEDS, 0, 0));
    needs[31].kind = ARROW_TYPES_KIND_INT16;
    CHECK(asks(names_needed, TEXT_OF_NAMES, needs, ARROW_TYPES_MAX_NEEDS, 0, 0, 31));

    static const uint32_t wrong[][2] = {{0, 0}, {11, 0}, {12, 0}, {8, 4}, {11, 1}, {0, 12}, {UINT32_MAX, 1},
                                        {0, UINT32_MAX}, {1, UINT32_MAX}, {UINT32_MAX, UINT32_MAX}};
    needs[0].kind = ARROW_TYPES_KIND_INT16;
    for (size_t i = 0; i < sizeof wrong / sizeof *wrong; i++) {
        needs[1].name_start = wrong[i][0];
        needs[1].name_length = wrong[i][1];
        CHECK(asks(names_needed, TEXT_OF_NAMES, needs, 2, ARROW_TYPES_WRONG_NEED_NAME, 0, 0));
        CHECK(asks(names_needed, TEXT_OF_NAMES, needs, 1, 0, 0, 0));
    }
    CHECK(asks("", 0, needs, 1, ARROW_TYPES_WRONG_NEED_NAME, 0, 0));
}

/* The refusals come in the order of their numbers. */
static void needing_in_order(void)
{
    static struct arrow_types_need nameless[ARROW_TYPES_MAX_NEEDS + 1];
    CHECK(read_text(&a, "Int8") == 0);
    CHECK(asks("", 0, nameless, 0, ARROW_TYPES_NOT_STRUCT, 0, 0));
    CHECK(asks("", 0, nameless, ARROW_TYPES_MAX_NEEDS + 1, ARROW_TYPES_NOT_STRUCT, 0, 0));
    CHECK(read_text(&a, "List(Struct(\"item\": Int8))") == 0);
    CHECK(asks(names_needed, TEXT_OF_NAMES, slot_file, 1, ARROW_TYPES_NOT_STRUCT, 0, 0));
    a.rows[ARROW_TYPES_WORD_ROWS] = 2;
    CHECK(asks("", 0, nameless, 0, ARROW_TYPES_NOT_SOUND, 0, 0));
    CHECK(asks("", 0, nameless, ARROW_TYPES_MAX_NEEDS + 1, ARROW_TYPES_NOT_SOUND, 0, 0));
    a.words = 0;
    CHECK(asks("", 0, nameless, 0, ARROW_TYPES_NOT_SOUND, 0, 0));

    CHECK(read_text(&a, "Struct()") == 0);
    CHECK(asks("", 0, nameless, ARROW_TYPES_MAX_NEEDS + 1, ARROW_TYPES_TOO_MANY_NEEDS, 0, 0));
    CHECK(asks("", 0, nameless, ARROW_TYPES_MAX_NEEDS, ARROW_TYPES_WRONG_NEED_NAME, 0, 0));
    CHECK(asks("", 0, nameless, 0, 0, 1, 0));
}

/* What stays of the tree in a without a field. What stands around it must stay as it was. */
static uint32_t left_rows[WORDS + 2];
static uint8_t left_text[ARROW_TYPES_MAX_TEXT + 3];
static size_t left_count[3], left_length[3];
static struct tree left, expected_left;

static uint32_t take_out(size_t field, size_t words, size_t bytes)
{
    for (size_t i = 0; i < WORDS + 2; i++)
        left_rows[i] = 7;
    memset(left_text, 'x', sizeof left_text);
    for (size_t i = 0; i < 3; i++)
        left_count[i] = left_length[i] = UNWRITTEN;
    return arrow_types_take_column_out(TREE(&a), field, left_rows + 1, words, left_text + 1, bytes,
                                       &left_count[1], &left_length[1]);
}

/* Whether so many rows and bytes are answered, and nothing but these was written. */
static int wrote(size_t count, size_t length)
{
    size_t words = count * ARROW_TYPES_ROW_WORDS;
    return left_count[1] == count && left_length[1] == length
        && left_rows[0] == 7 && all(left_rows + 1 + words, WORDS + 1 - words, 7)
        && left_text[0] == 'x' && untouched(left_text + 1 + length, sizeof left_text - 1 - length)
        && left_count[0] == UNWRITTEN && left_count[2] == UNWRITTEN
        && left_length[0] == UNWRITTEN && left_length[2] == UNWRITTEN;
}

/* Whether a field stays with a number, and nothing is written. */
static int keeps(size_t field, size_t words, size_t bytes, uint32_t number)
{
    return take_out(field, words, bytes) == number && wrote(0, 0);
}

/* Whether two trees are sound, equal, as deep as one another and print alike. */
static int same(const struct tree *tree, const struct tree *other)
{
    static uint8_t out[2][ARROW_TYPES_MAX_TEXT];
    size_t depth[2], length[2];
    return arrow_types_is_sound(TREE(tree)) == 1 && arrow_types_equal(TREE(tree), TREE(other)) == 1
        && arrow_types_depth(TREE(tree), &depth[0]) == 0 && arrow_types_depth(TREE(other), &depth[1]) == 0
        && depth[0] == depth[1]
        && arrow_types_print(TREE(tree), out[0], sizeof out[0], &length[0]) == 0
        && arrow_types_print(TREE(other), out[1], sizeof out[1], &length[1]) == 0
        && length[0] == length[1] && memcmp(out[0], out[1], length[0]) == 0;
}

/* Whether the tree in a without a field is another, over a text, with so much room as is lent. */
static int stays(size_t field, const char *packed, size_t words, size_t bytes)
{
    size_t length = strlen(packed), count = expected_left.words / ARROW_TYPES_ROW_WORDS;
    if (take_out(field, words, bytes) != 0 || !wrote(count, length) || memcmp(left_text + 1, packed, length) != 0)
        return 0;
    left.text = left_text + 1;
    left.length = length;
    left.words = expected_left.words;
    memcpy(left.rows, left_rows + 1, left.words * sizeof *left.rows);
    return same(&left, &expected_left);
}

/* The same of a type, with all room and with just enough; where a word or a byte is missing nothing is written. */
static int leaves(const char *text, size_t field, const char *packed, const char *expected)
{
    size_t length = strlen(packed);
    if (read_text(&a, text) != 0 || read_text(&expected_left, expected) != 0)
        return 0;
    size_t words = expected_left.words;
    return stays(field, packed, WORDS, ARROW_TYPES_MAX_TEXT) && stays(field, packed, words, length)
        && stays(field, packed, words + ARROW_TYPES_ROW_WORDS - 1, ARROW_TYPES_MAX_TEXT + 1)
        && keeps(field, words - 1, length, ARROW_TYPES_NO_ROOM)
        && keeps(field, 0, ARROW_TYPES_MAX_TEXT, ARROW_TYPES_NO_ROOM)
        && (length == 0 || keeps(field, words, length - 1, ARROW_TYPES_NO_ROOM));
}

static void taking_out(void)
{
    static const char row[] = "Struct(\"slot\": non-null Timestamp(s, \"CET\"), \"tenant\": Utf8, \"kwh\": Decimal64(12, 3))";
    CHECK(leaves(row, 0, "tenantkwh", "Struct(\"tenant\": Utf8, \"kwh\": Decimal64(12, 3))"));
    CHECK(leaves(row, 1, "slotCETkwh", "Struct(\"slot\": non-null Timestamp(s, \"CET\"), \"kwh\": Decimal64(12, 3))"));
    CHECK(leaves(row, 2, "slotCETtenant", "Struct(\"slot\": non-null Timestamp(s, \"CET\"), \"tenant\": Utf8)"));
    CHECK(leaves("Struct(\"tenant\": List(Timestamp(s, \"CET\")))", 0, "", "Struct()"));

    /* What stands below a field goes with it, and names of the name list become text. */
    static const char nested[] = "Struct(\"a\": Struct(\"b\": List(Int8), \"c\": Timestamp(ms, \"EET\")), \"d\": "
                                 "RunEndEncoded(non-null Int32, Utf8), \"e\": Dictionary(Int8, List(Int8)))";
    CHECK(leaves(nested, 0, "drun_endsvalueseitem",
                 "Struct(\"d\": RunEndEncoded(non-null Int32, Utf8), \"e\": Dictionary(Int8, List(Int8)))"));
    CHECK(leaves(nested, 1, "abitemcEETeitem",
                 "Struct(\"a\": Struct(\"b\": List(Int8), \"c\": Timestamp(ms, \"EET\")), \"e\": Dictionary(Int8, List(Int8)))"));
    CHECK(leaves("Struct(\"a\": Int8, \"u\": Union(Dense, 5: (\"x\": Int8), 3: (\"y\": Timestamp(s, \"Z\"))))", 0, "uxyZ",
                 "Struct(\"u\": Union(Dense, 5: (\"x\": Int8), 3: (\"y\": Timestamp(s, \"Z\"))))"));

    /* The rows word by word: places in the text, home 1 and the parents. */
    static const uint32_t rows[] = {32, 4, 0, 0, 0, 0, 0, 0, 0, 0, 0, 0, 27, 2, 1, 0, 0, 0, 1, 0, 1, 0, 0, 0,
                                    2, 1, 1, 0, 0, 0, 1, 1, 4, 0, 0, 1, 13, 1, 2, 0, 0, 0, 1, 5, 1, 6, 3, 0};
    CHECK(leaves("Struct(\"a\": Struct(\"b\": Int8), \"l\": List(Int8), \"t\": non-null Timestamp(s, \"CET\"))", 0, "litemtCET",
                 "Struct(\"l\": List(Int8), \"t\": non-null Timestamp(s, \"CET\"))"));
    CHECK(left.words == sizeof rows / sizeof *rows && memcmp(left.rows, rows, sizeof rows) == 0);
}

/* A Struct of three Int8 fields, named by so many bytes from the start of a text, by its first byte and by its last. */
static void overlap(uint32_t length)
{
    static uint8_t text[ARROW_TYPES_MAX_TEXT];
    const uint32_t rows[] = {32, 4, 0, 0, 0, 0, 0, 0, 0, 0, 0, 0, 2, 1, 1, 0, 0, 0, 1, 0, length, 0, 0, 0,
                             2, 1, 1, 0, 0, 0, 1, 0, 1, 0, 0, 0, 2, 1, 1, 0, 0, 0, 1, sizeof text - 1, 1, 0, 0, 0};
    memset(text, 'n', sizeof text);
    a = (struct tree){.text = text, .length = sizeof text, .words = sizeof rows / sizeof *rows};
    memcpy(a.rows, rows, sizeof rows);
}

/* Names that share bytes share none where they are packed, and 16,384 bytes are the most. */
static void taking_out_of_overlap(void)
{
    overlap(ARROW_TYPES_MAX_TEXT);
    CHECK(keeps(1, WORDS, ARROW_TYPES_MAX_TEXT + 1, ARROW_TYPES_NO_ROOM));
    CHECK(keeps(2, WORDS, ARROW_TYPES_MAX_TEXT, ARROW_TYPES_NO_ROOM));
    CHECK(take_out(0, WORDS, 2) == 0 && wrote(3, 2) && memcmp(left_text + 1, "nn", 2) == 0);
    overlap(ARROW_TYPES_MAX_TEXT - 1);
    CHECK(take_out(1, WORDS, ARROW_TYPES_MAX_TEXT) == 0 && wrote(3, ARROW_TYPES_MAX_TEXT));
    CHECK(keeps(1, WORDS, ARROW_TYPES_MAX_TEXT - 1, ARROW_TYPES_NO_ROOM));
}

/* 17, 25, 29 and 28, in that order. */
static void taking_out_in_order(void)
{
    CHECK(read_text(&a, "Int8") == 0);
    CHECK(keeps(0, WORDS, ARROW_TYPES_MAX_TEXT, ARROW_TYPES_NOT_STRUCT));
    CHECK(keeps(SIZE_MAX, 0, 0, ARROW_TYPES_NOT_STRUCT));
    a.rows[ARROW_TYPES_WORD_KIND] = 41;
    CHECK(keeps(SIZE_MAX, 0, 0, ARROW_TYPES_NOT_SOUND));
    a.words = 0;
    CHECK(keeps(0, WORDS, ARROW_TYPES_MAX_TEXT, ARROW_TYPES_NOT_SOUND));
    CHECK(read_text(&a, "List(Struct(\"a\": Int8))") == 0);
    CHECK(keeps(0, WORDS, ARROW_TYPES_MAX_TEXT, ARROW_TYPES_NOT_STRUCT));

    CHECK(read_text(&a, "Struct(\"a\": Struct(\"b\": Int8, \"c\": Int8))") == 0);
    CHECK(keeps(1, WORDS, ARROW_TYPES_MAX_TEXT, ARROW_TYPES_NO_SUCH_FIELD));
    CHECK(keeps(1, 0, 0, ARROW_TYPES_NO_SUCH_FIELD));
    CHECK(keeps(SIZE_MAX, 0, 0, ARROW_TYPES_NO_SUCH_FIELD));
    CHECK(keeps(0, 0, 0, ARROW_TYPES_NO_ROOM));
    CHECK(keeps(0, ARROW_TYPES_ROW_WORDS - 1, 0, ARROW_TYPES_NO_ROOM));
    CHECK(take_out(0, ARROW_TYPES_ROW_WORDS, 0) == 0 && wrote(1, 0));
    a.rows[ARROW_TYPES_WORD_ROWS] = 3;
    CHECK(keeps(1, 0, 0, ARROW_TYPES_NOT_SOUND));
    CHECK(read_text(&a, "Struct()") == 0);
    CHECK(keeps(0, WORDS, ARROW_TYPES_MAX_TEXT, ARROW_TYPES_NO_SUCH_FIELD));
}

/* An image, with a byte before and one behind it; what is read of it, with a word and a byte before and behind. */
enum { MOST_IMAGE = ARROW_TYPES_MAX_ROWS * ARROW_TYPES_RECORD_BYTES + ARROW_TYPES_MAX_TEXT };
static uint8_t image[MOST_IMAGE + 2];
static size_t image_length;
static struct tree archived;

/* Writes the tree in a into so many bytes of such as nothing writes. */
static uint32_t to_archive(size_t bytes)
{
    memset(image, 'x', sizeof image);
    image_length = UNWRITTEN;
    return arrow_types_to_archive(TREE(&a), image + 1, bytes, &image_length);
}

/* Whether the call wrote these bytes alone. */
static int has_image(const void *bytes, size_t length)
{
    return image_length == length && image[0] == 'x' && memcmp(image + 1, bytes, length) == 0
        && untouched(image + 1 + length, sizeof image - 1 - length);
}

/* Reads an image into so many words and bytes of such as nothing writes. */
static uint32_t from_archive(const void *bytes, size_t length, size_t words, size_t text)
{
    fill(left_rows, 7);
    left_rows[WORDS] = left_rows[WORDS + 1] = 7;
    memset(left_text, 'x', sizeof left_text);
    for (int i = 0; i < 3; i++)
        left_count[i] = left_length[i] = UNWRITTEN;
    return arrow_types_from_archive(bytes, length, left_rows + 1, words, left_text + 1, text, &left_count[1], &left_length[1]);
}

/* Whether an image is refused with a number, and all that is lent is cleared, and nothing else written. */
static int clears(const void *bytes, size_t length, size_t words, size_t text, uint32_t number)
{
    static const uint8_t zeros[sizeof left_text];
    return from_archive(bytes, length, words, text) == number
        && left_count[1] == 0 && left_length[1] == 0 && left_count[0] == UNWRITTEN && left_length[2] == UNWRITTEN
        && left_rows[0] == 7 && all(left_rows + 1, words, 0) && all(left_rows + 1 + words, WORDS + 1 - words, 7)
        && left_text[0] == 'x' && memcmp(left_text + 1, zeros, text) == 0
        && untouched(left_text + 1 + text, sizeof left_text - 1 - text);
}

/* Whether a text's image has these bytes, in just as many lent and in more, and reads back as an equal tree. */
static int archives(const char *text, const void *bytes, size_t length)
{
    if (read_text(&a, text) != 0)
        return 0;
    if (to_archive(length - 1) != ARROW_TYPES_NO_ROOM || !has_image("", 0) || image_length != 0)
        return 0;
    if (to_archive(length) != 0 || !has_image(bytes, length) || to_archive(MOST_IMAGE) != 0 || !has_image(bytes, length))
        return 0;
    if (from_archive(bytes, length, WORDS, ARROW_TYPES_MAX_TEXT) != 0)
        return 0;
    size_t words = left_count[1] * ARROW_TYPES_ROW_WORDS, packed = left_length[1];
    if (words != a.words || from_archive(bytes, length, words, packed) != 0)
        return 0;
    if (!wrote(words / ARROW_TYPES_ROW_WORDS, packed))
        return 0;
    archived = (struct tree){.text = left_text + 1, .length = packed, .words = words};
    memcpy(archived.rows, left_rows + 1, words * sizeof *left_rows);
    int equal = arrow_types_equal(TREE(&a), TREE(&archived)) == 1 && arrow_types_is_sound(TREE(&archived)) == 1;
    return equal && clears(bytes, length, words - 1, packed, ARROW_TYPES_NO_ROOM)
        && (packed == 0 || clears(bytes, length, words, packed - 1, ARROW_TYPES_NO_ROOM));
}

#define ARCHIVES(text, bytes) archives(text, bytes, sizeof bytes - 1)
#define ZEROS "\0\0\0\0\0\0\0\0\0\0\0"
#define INT8_IMAGE "\x11\0\0\0\2\0" ZEROS

static void archiving(void)
{
    CHECK(ARCHIVES("Int8", INT8_IMAGE));
#define CET_IMAGE "\x26\0\0\0\x20\0" ZEROS "\x15\0\0\0\x0d\0\2\0\0\0\0\0\0\1\0" "a" "\3\0" "CET"
    CHECK(ARCHIVES("Struct(\"a\": non-null Timestamp(s, \"CET\"))", CET_IMAGE));
    static const uint32_t rows[] = {32, 2, 0, 0, 0, 0, 0, 0, 0, 0, 0, 0, 13, 1, 2, 0, 0, 0, 1, 0, 1, 1, 3, 0};
    CHECK(archived.words == sizeof rows / sizeof *rows && memcmp(archived.rows, rows, sizeof rows) == 0);
#define ITEM "\x26\0\0\0\x1b\0" ZEROS "\x15\0\0\0\2\0\1\0\0\0\0\0\0\4\0" "item" "\0\0"
    CHECK(ARCHIVES("List(Int8)", ITEM));
    CHECK(ARCHIVES("List(Int8, field: 'item')", ITEM));
    CHECK(ARCHIVES("Union(Dense, 5: (\"x\": Int8))",
                   "\x23\0\0\0\x21\0\0\0\1\0\0\0\0\0\0\0\0" "\x12\0\0\0\2\0\1\5\0\0\0\0\0\1\0" "x" "\0\0"));
    CHECK(ARCHIVES("FixedSizeBinary(2147483647)", "\x11\0\0\0\x15\0\0\0\xff\xff\xff\x7f\0\0\0\0\0"));
    CHECK(ARCHIVES("Decimal256(76, -128)", "\x11\0\0\0\x26\0\0\0\x4c\0\0\0\0\0\0\0\0"));
    CHECK(ARCHIVES("Dictionary(Int8, Utf8)", "\x33\0\0\0\x22\0" ZEROS INT8_IMAGE "\x11\0\0\0\x18\0" ZEROS));
    CHECK(from_archive(CET_IMAGE, sizeof CET_IMAGE - 1, 24, 4) == 0 && wrote(2, 4) && memcmp(left_text + 1, "aCET", 4) == 0);
    CHECK(from_archive(ITEM, sizeof ITEM - 1, WORDS, ARROW_TYPES_MAX_TEXT) == 0 && wrote(2, 4)
          && memcmp(left_text + 1, "item", 4) == 0);

    /* 17 comes before 28, and a refusal changes nothing. */
    CHECK(read_text(&a, "Int8") == 0);
    a.rows[ARROW_TYPES_WORD_ROLE] = 1;
    CHECK(to_archive(0) == ARROW_TYPES_NOT_SOUND && has_image("", 0));
    CHECK(to_archive(MOST_IMAGE) == ARROW_TYPES_NOT_SOUND && has_image("", 0));
}

/* Whether an image is refused with a number where all may be used. */
static int refuses(const char *bytes, size_t length, uint32_t number)
{
    return clears(bytes, length, WORDS, ARROW_TYPES_MAX_TEXT, number);
}

#define REFUSES(bytes, number) refuses(bytes, sizeof bytes - 1, number)

static void not_archiving(void)
{
    CHECK(clears("", 0, 25, 3, ARROW_TYPES_WRONG_LENGTH));
    CHECK(refuses(INT8_IMAGE, 3, ARROW_TYPES_WRONG_LENGTH));
    CHECK(refuses(INT8_IMAGE, 16, ARROW_TYPES_WRONG_LENGTH));
    CHECK(REFUSES("\x10\0\0\0\2\0" ZEROS, ARROW_TYPES_WRONG_LENGTH));
    CHECK(REFUSES("\x12\0\0\0\2\0" ZEROS, ARROW_TYPES_WRONG_LENGTH));
    CHECK(REFUSES(INT8_IMAGE "\0", ARROW_TYPES_WRONG_LENGTH));
    CHECK(REFUSES(INT8_IMAGE INT8_IMAGE, ARROW_TYPES_WRONG_LENGTH));
    CHECK(REFUSES("\x14\0\0\0\x20\0" ZEROS "\1\2\3", ARROW_TYPES_WRONG_LENGTH));
    CHECK(clears("\x11\0\0\0\x29\0" ZEROS, 17, 0, 0, ARROW_TYPES_UNKNOWN_KIND));
    CHECK(clears("\x11\0\0\0\2\1" ZEROS, 17, 0, 0, ARROW_TYPES_UNKNOWN_KIND));
    CHECK(clears(INT8_IMAGE, 17, 0, 0, ARROW_TYPES_NO_ROOM));
    CHECK(clears(INT8_IMAGE, 17, 11, 5, ARROW_TYPES_NO_ROOM));
    /* The name's room comes before the zone's length. */
#define SHORT_ZONE "\x12\0\0\0\2\0\0\0\0\0\0\0\0\2\0" "ab" "\0"
    CHECK(clears(SHORT_ZONE, 18, 12, 1, ARROW_TYPES_NO_ROOM));
    CHECK(clears(SHORT_ZONE, 18, 12, 2, ARROW_TYPES_WRONG_LENGTH));
    CHECK(clears(SHORT_ZONE, 18, 0, 2, ARROW_TYPES_NO_ROOM));
    /* A leaf with a child, a named root, a root of role 1, a zone on Int8. */
    CHECK(REFUSES("\x22\0\0\0\2\0" ZEROS INT8_IMAGE, ARROW_TYPES_NOT_SOUND));
    CHECK(REFUSES("\x12\0\0\0\2\0\0\0\0\0\0\0\0\1\0" "a" "\0\0", ARROW_TYPES_NOT_SOUND));
    CHECK(REFUSES("\x11\0\0\0\2\0\1\0\0\0\0\0\0\0\0\0\0", ARROW_TYPES_NOT_SOUND));
    CHECK(REFUSES("\x12\0\0\0\2\0\0\0\0\0\0\0\0\0\0\1\0" "a", ARROW_TYPES_NOT_SOUND));
}

/* The whole of a file. */
static size_t file(const char *folder, const char *name, char *bytes, size_t most)
{
    char path[4096];
    snprintf(path, sizeof path, "%s/%s", folder, name);
    FILE *from = fopen(path, "rb");
    if (from == NULL) {
        printf("%s is not there\n", path);
        return 0;
    }
    size_t length = fread(bytes, 1, most, from);
    fclose(from);
    return length;
}

/* Each golden file is its text's image, byte for byte. A line of texts is the file's name, a space and the text. */
static void golden_files(const char *folder)
{
    static char texts[4 * ARROW_TYPES_MAX_TEXT], bytes[MOST_IMAGE];
    unsigned files = 0;
    size_t length = file(folder, "texts", texts, sizeof texts - 1);
    texts[length] = 0;
    for (char *line = texts, *end; (end = strchr(line, '\n')) != NULL; line = end + 1, files++) {
        char *text = strchr(line, ' ');
        *end = *text++ = 0;
        size_t size = file(folder, line, bytes, sizeof bytes);
        int as_stored = size >= ARROW_TYPES_RECORD_BYTES && archives(text, bytes, size);
        if (!as_stored)
            printf("%s differs\n", line);
        CHECK(as_stored);
    }
    CHECK(files >= 12);
}

/* Rows in halves, and rows brought back, each among words that must stay as they were. */
#define HALVES (ARROW_TYPES_MAX_ROWS * ARROW_TYPES_HALF_ROW_WORDS)

static uint16_t halves[HALVES + 2];
static uint32_t wide[WORDS + 2];
static size_t kept_count[3];

static void fill_halves(void)
{
    for (size_t i = 0; i < HALVES + 2; i++)
        halves[i] = 9;
}

static uint32_t keep(size_t room)
{
    fill_halves();
    kept_count[0] = kept_count[1] = kept_count[2] = UNWRITTEN;
    return arrow_types_to_half_rows(TREE(&a), halves + 1, room, &kept_count[1]);
}

static uint32_t bring_back(const uint16_t *from, size_t length, size_t room)
{
    for (size_t i = 0; i < WORDS + 2; i++)
        wide[i] = 7;
    kept_count[0] = kept_count[1] = kept_count[2] = UNWRITTEN;
    return arrow_types_from_half_rows(a.text, a.length, NAMES, from, length, wide + 1, room, &kept_count[1]);
}

/* Whether so many rows were counted and nothing else beside the count was written. */
static int counted(size_t count)
{
    return kept_count[0] == UNWRITTEN && kept_count[1] == count && kept_count[2] == UNWRITTEN;
}

/* Whether all half words lent but the first are as they were. */
static int halves_untouched(size_t from)
{
    for (size_t i = from; i < HALVES + 2; i++)
        if (halves[i] != 9)
            return 0;
    return halves[0] == 9;
}

/* Whether the tree in a is kept in just these half words, with all room and with just enough, and comes back word for word. */
static int kept_as(const uint16_t *expected, size_t count)
{
    size_t length = count * ARROW_TYPES_HALF_ROW_WORDS;
    static uint16_t kept[HALVES];
    for (int more = 0; more < 2; more++)
        if (keep(more ? (size_t)HALVES : length) != 0 || !counted(count) || !halves_untouched(1 + length)
            || memcmp(halves + 1, expected, length * sizeof *expected) != 0)
            return 0;
    if (keep(length - 1) != ARROW_TYPES_NO_ROOM || !counted(0) || !halves_untouched(1))
        return 0;
    memcpy(kept, expected, length * sizeof *expected);
    for (int more = 0; more < 2; more++)
        if (bring_back(kept, length, more ? (size_t)WORDS : a.words) != 0 || !counted(count) || wide[0] != 7
            || memcmp(wide + 1, a.rows, a.words * sizeof *wide) != 0 || !all(wide + 1 + a.words, WORDS + 1 - a.words, 7))
            return 0;
    return bring_back(kept, length, a.words - 1) == ARROW_TYPES_NO_ROOM && counted(0) && all(wide, WORDS + 2, 7);
}

/* Whether half words are brought back with a number, and nothing is written, however much is lent. */
static int not_back(const uint16_t *from, size_t length)
{
    return bring_back(from, length, 0) == ARROW_TYPES_NOT_SOUND && counted(0) && all(wide, WORDS + 2, 7)
        && bring_back(from, length, WORDS) == ARROW_TYPES_NOT_SOUND && counted(0) && all(wide, WORDS + 2, 7);
}

static void keeping_halves(void)
{
    static const uint16_t int8[] = {2, 1, 0, 0, 0, 0, 0, 0, 0, 0, 0, 0, 0};
    static const uint16_t low[] = {21, 1, 0, 0, 65535, 0, 0, 0, 0, 0, 0, 0, 0};
    static const uint16_t high[] = {21, 1, 0, 0, 0, 1, 0, 0, 0, 0, 0, 0, 0};
    static const uint16_t greatest[] = {21, 1, 0, 0, 65535, 32767, 0, 0, 0, 0, 0, 0, 0};
    static const uint16_t columns[] = {32, 3, 0, 0, 0, 0, 0, 0, 0, 0, 0, 0, 0, 13, 1, 2, 0, 0, 0, 0, 1, 8, 4, 38, 3, 0,
                                       36, 1, 1, 0, 12, 0, 131, 1, 46, 3, 0, 0, 0};
    static const uint16_t list[] = {27, 2, 0, 0, 0, 0, 0, 0, 0, 0, 0, 0, 0, 2, 1, 1, 0, 0, 0, 0, 2, 0, 4, 0, 0, 0};
    static const uint16_t dense[] = {33, 2, 0, 0, 1, 0, 0, 0, 0, 0, 0, 0, 0, 2, 1, 1, 127, 0, 0, 0, 1, 20, 1, 0, 0, 0};
    CHECK(read_text(&a, "Int8") == 0 && kept_as(int8, 1));
    CHECK(read_text(&a, "FixedSizeBinary(65535)") == 0 && kept_as(low, 1));
    CHECK(read_text(&a, "FixedSizeBinary(65536)") == 0 && kept_as(high, 1));
    CHECK(read_text(&a, "FixedSizeBinary(2147483647)") == 0 && kept_as(greatest, 1));
    CHECK(read_text(&a, "Struct(\"slot\": non-null Timestamp(s, \"CET\"), \"kwh\": Decimal64(12, 3))") == 0 && kept_as(columns, 3));
    CHECK(read_text(&a, "List(Int8)") == 0 && kept_as(list, 2));
    CHECK(read_text(&a, "Union(Dense, 127: (\"x\": Int8))") == 0 && kept_as(dense, 2));
}

/* 17 before 28, both ways; and half words that are no tree. */
static void refusing_halves(void)
{
    CHECK(read_text(&a, "Int8") == 0);
    a.rows[ARROW_TYPES_WORD_ROLE] = 1;
    CHECK(keep(0) == ARROW_TYPES_NOT_SOUND && counted(0) && halves_untouched(1));

    CHECK(read_text(&a, "Int8") == 0);
    uint16_t int8[ARROW_TYPES_HALF_ROW_WORDS + 1] = {2, 1};
    CHECK(bring_back(int8, ARROW_TYPES_HALF_ROW_WORDS, ARROW_TYPES_ROW_WORDS) == 0 && counted(1));
    CHECK(not_back(int8, 0) && not_back(int8, ARROW_TYPES_HALF_ROW_WORDS - 1) && not_back(int8, ARROW_TYPES_HALF_ROW_WORDS + 1));
    static const struct {
        size_t at;
        uint16_t half;
    } faults[] = {{0, 41}, {1, 65535}, {2, 1}, {4, 1}, {5, 1}, {6, 1}, {12, 1}};
    for (size_t i = 0; i < sizeof faults / sizeof *faults; i++) {
        uint16_t before = int8[faults[i].at];
        int8[faults[i].at] = faults[i].half;
        CHECK(not_back(int8, ARROW_TYPES_HALF_ROW_WORDS));
        int8[faults[i].at] = before;
    }
    static const uint16_t too_great[] = {21, 1, 0, 0, 65535, 32768, 0, 0, 0, 0, 0, 0, 0};
    CHECK(not_back(too_great, ARROW_TYPES_HALF_ROW_WORDS));

    /* Over another text the same rows are another tree, or none. */
    static const uint16_t field[] = {32, 2, 0, 0, 0, 0, 0, 0, 0, 0, 0, 0, 0, 2, 1, 1, 0, 0, 0, 0, 1, 8, 1, 0, 0, 0};
    CHECK(read_text(&a, "Struct(\"b\": Int8)") == 0 && kept_as(field, 2));
    CHECK(read_text(&a, "Struct") != 0);
    CHECK(not_back(field, sizeof field / sizeof *field));
}

/* Every number has a sentence of its own, and no other number has one. */
static void sentences(void)
{
    enum { LAST = ARROW_TYPES_UNKNOWN_KIND };
    const char *none = arrow_types_sentence(0);
    unsigned refusals = 0;
    for (uint32_t number = 1; number <= LAST; number++) {
        int is_refusal = number <= ARROW_TYPES_PRINT_TOO_LONG || number >= ARROW_TYPES_NOT_STRUCT;
        refusals += (unsigned)is_refusal;
        CHECK((strcmp(arrow_types_sentence(number), none) != 0) == is_refusal);
        for (uint32_t other = 1; is_refusal && other < number; other++)
            CHECK(strcmp(arrow_types_sentence(number), arrow_types_sentence(other)) != 0);
    }
    CHECK(refusals == 26);
    CHECK(strcmp(arrow_types_sentence(LAST + 1), none) == 0);
    CHECK(strcmp(arrow_types_sentence(UINT32_MAX), none) == 0);
    CHECK(strcmp(arrow_types_sentence(ARROW_TYPES_NOT_UTF8), "the text is not UTF-8") == 0);
    CHECK(strcmp(arrow_types_sentence(ARROW_TYPES_NOT_STRUCT), "the root is not a Struct") == 0);
    CHECK(strcmp(arrow_types_sentence(ARROW_TYPES_NO_SUCH_FIELD), "there is no such field") == 0);
    CHECK(strcmp(arrow_types_sentence(ARROW_TYPES_UNKNOWN_KIND), "there is no such kind") == 0);
}

/* And every step. */
static void step_sentences(void)
{
    const char *none = arrow_types_step_sentence(ARROW_TYPES_DIFFERENT + 1);
    for (uint32_t step = 0; step <= ARROW_TYPES_DIFFERENT; step++) {
        CHECK(strcmp(arrow_types_step_sentence(step), none) != 0);
        for (uint32_t other = 0; other < step; other++)
            CHECK(strcmp(arrow_types_step_sentence(step), arrow_types_step_sentence(other)) != 0);
    }
    CHECK(strcmp(arrow_types_step_sentence(UINT32_MAX), none) == 0);
}

static void version(void)
{
    char text[40];
    sprintf(text, "%d.%d.%d", ARROW_TYPES_VERSION_MAJOR, ARROW_TYPES_VERSION_MINOR, ARROW_TYPES_VERSION_PATCH);
    CHECK(strcmp(text, ARROW_TYPES_VERSION) == 0);
}

int main(int count, char **arguments)
{
    if (count != 2) {
        fprintf(stderr, "usage: check FOLDER\n");
        return 2;
    }
    reading();
    places();
    lending();
    printing();
    printing_names();
    characters();
    spelling();
    longest();
    rewriting();
    not_rewriting();
    judging();
    comparing();
    naming();
    parents();
    eleven_words();
    needing();
    needing_null_and_zone();
    needing_names();
    needing_too_much();
    needing_in_order();
    taking_out();
    taking_out_of_overlap();
    taking_out_in_order();
    archiving();
    not_archiving();
    golden_files(arguments[1]);
    keeping_halves();
    refusing_halves();
    sentences();
    step_sentences();
    version();
    printf("%u checks, %u failed\n", checks, failures);
    return failures != 0;
}
