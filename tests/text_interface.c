/* Calls the writer and the reader of texts from C; each call's answer and the whole slice that it lends are looked at. */
#include <stdio.h>
#include <string.h>
#include "tunesaturn.h"

/* The tail shows that a call leaves what stands behind. */
enum { LINES = 11, TAIL = 5, NODE = 6, ITEM = 7, BYTE_BEFORE = 0x5a, FULL = TUNESATURN_TEXT_LIMIT };
static const uint32_t WORD_BEFORE = 0x5a5a5a5a;

static const uint32_t S[67] = {
    67, 2, 8, 6, 10, 3, 46, 0, 1, 1,
    1, 0, 0, 0, 0, 0, 1, 1, 0, 0, 0, 0, 2, 1, 0, 0, 0, 1,
    6, 2, 0, 0, 1, 1, 8, 0, 3, 1, 2, 0, 2, 4, 0, 0, 2, 1,
    1, 0, 0, 0, 1, 0, 0, 13, 0, 0, 0, 0, 0, 0, 3, 0, 0, 1, 2, 0, 2};

static const char *const S_LINES[LINES] = {
    "2 6 3\n", "1 1\n",
    "1 0 0 0 0 0\n", "1 1 0 0 0 0\n", "2 1 0 0 0 1\n", "6 2 0 0 1 1\n", "8 0 3 1 2 0\n", "2 4 0 0 2 1\n",
    "1 0 0 0 1 0 0\n", "13 0 0 0 0 0 0\n", "3 0 0 1 2 0 2\n"};

static int wrong = 0;

static void expect(const char *name, const char *what, tunesaturn_answer got, uint32_t number, uint32_t line, uint64_t count) {
    if (got.number == number && got.node == line && got.count == count) return;
    printf("%s, %s: %u %u %llu\n", name, what, got.number, got.node, (unsigned long long)got.count);
    wrong = 1;
}

/* Writes with so much room; the slice then has the first bytes of the text, as many as were written, and else what it had. */
static void writes(const char *name, const uint32_t *words, size_t length, size_t room, uint32_t number, const char *text, size_t count) {
    static uint8_t slice[TUNESATURN_LONGEST_TEXT + TAIL], after[TUNESATURN_LONGEST_TEXT + TAIL];
    memset(slice, BYTE_BEFORE, sizeof slice);
    memset(after, BYTE_BEFORE, sizeof after);
    if (number == 0) memcpy(after, text, count);
    expect(name, "written", tunesaturn_write_text(words, length, slice, room), number, 0, number ? 0 : count);
    if (memcmp(slice, after, sizeof slice) != 0) { printf("%s: not the bytes that writing leaves\n", name); wrong = 1; }
}

/* Reads with so much room, and likewise. */
static void reads(const char *name, const char *text, size_t length, size_t room, uint32_t number, uint32_t line, const uint32_t *words, size_t count) {
    static uint32_t slice[TUNESATURN_LONGEST + TAIL], after[TUNESATURN_LONGEST + TAIL];
    for (size_t i = 0; i < TUNESATURN_LONGEST + TAIL; i++) slice[i] = after[i] = WORD_BEFORE;
    if (number == 0) memcpy(after, words, count * sizeof *words);
    expect(name, "read", tunesaturn_read_text((const uint8_t *)text, length, slice, room), number, line, number ? 0 : count);
    if (memcmp(slice, after, sizeof slice) != 0) { printf("%s: not the words that reading leaves\n", name); wrong = 1; }
}

/* 16 comes before 17, so room does not count. */
static void bad(const char *name, const char *text, size_t length, uint32_t line) {
    reads(name, text, length, TUNESATURN_LONGEST, 16, line, NULL, 0);
    reads(name, text, length, 0, 16, line, NULL, 0);
}

/* Words and their text, both ways: room to the word and the byte, more, one less, none. */
static void good(const char *name, const uint32_t *words, size_t count, const char *text, size_t length) {
    reads(name, text, length, count, 0, 0, words, count);
    reads(name, text, length, count + TAIL, 0, 0, words, count);
    reads(name, text, length, count - 1, 17, 0, NULL, 0);
    reads(name, text, length, 0, 17, 0, NULL, 0);
    writes(name, words, count, length, 0, text, length);
    writes(name, words, count, length + TAIL, 0, text, length);
    writes(name, words, count, length - 1, 17, NULL, 0);
    writes(name, words, count, 0, 17, NULL, 0);
}

static char text[FULL + TAIL];
static size_t length;

static void put(const char *bytes, size_t count) {
    memcpy(text + length, bytes, count);
    length += count;
}

static void put_text(const char *bytes) { put(bytes, strlen(bytes)); }

/* S's lines from one up to another, numbered from 1. */
static void put_lines(int from, int to) {
    for (int line = from; line <= to; line++) put_text(S_LINES[line - 1]);
}

/* S with bytes in place of a line; line 12 stands behind all others. */
typedef struct {
    const char *name;
    int line;
    const char *bytes;
    size_t count;
    uint32_t refused_at;
} damage;

#define BYTES(text) (text), sizeof(text) - 1

static const damage DAMAGES[] = {
    {"no last newline", 11, BYTES("3 0 0 1 2 0 2"), 11},
    {"the last line missing", 11, BYTES(""), 11},
    {"a node's line missing: an item's stands there", 8, BYTES(""), 8},
    {"an item's line missing", 10, BYTES(""), 11},
    {"the widths missing", 2, BYTES(""), 2},
    {"the first line missing", 1, BYTES(""), 1},
    {"an empty line", 5, BYTES("\n"), 5},
    {"an empty line in front", 1, BYTES("\n2 6 3\n"), 1},
    {"an item's line too many", 12, BYTES("3 0 0 1 2 0 2\n"), 12},
    {"an empty line too many", 12, BYTES("\n"), 12},
    {"a byte behind", 12, BYTES("3"), 12},
    {"a byte 0 behind", 12, BYTES("\0"), 12},
    {"a node's line twice", 4, BYTES("1 1 0 0 0 0\n1 1 0 0 0 0\n"), 9},
    {"two lines too many", 12, BYTES("1 1\n1 1\n"), 12},
    {"a node's line of five", 3, BYTES("1 0 0 0 0\n"), 3},
    {"a node's line of seven", 3, BYTES("1 0 0 0 0 0 0\n"), 3},
    {"an item's line of six", 9, BYTES("1 0 0 0 1 0\n"), 9},
    {"an item's line of eight", 9, BYTES("1 0 0 0 1 0 0 0\n"), 9},
    {"one width", 2, BYTES("1\n"), 2},
    {"three widths", 2, BYTES("1 1 1\n"), 2},
    {"a first line of two", 1, BYTES("2 6\n"), 1},
    {"a first line of four", 1, BYTES("2 6 3 0\n"), 1},
    {"two spaces", 4, BYTES("1 1  0 0 0 0\n"), 4},
    {"a space in front", 4, BYTES(" 1 1 0 0 0 0\n"), 4},
    {"a space at the end", 4, BYTES("1 1 0 0 0 0 \n"), 4},
    {"a space before the first line", 1, BYTES(" 2 6 3\n"), 1},
    {"a space behind the widths", 2, BYTES("1 1 \n"), 2},
    {"a space behind an item", 11, BYTES("3 0 0 1 2 0 2 \n"), 11},
    {"a tab", 4, BYTES("1\t1 0 0 0 0\n"), 4},
    {"a carriage return", 4, BYTES("1 1 0 0 0 0\r\n"), 4},
    {"a carriage return alone", 4, BYTES("1 1 0 0 0 0\r"), 4},
    {"a byte 0 for a 0", 4, BYTES("1 1 0 0 0 \0\n"), 4},
    {"a byte 0 at the end", 4, BYTES("1 1 0 0 0 0\0\n"), 4},
    {"a letter", 4, BYTES("1 1 0 0 0 a\n"), 4},
    {"the byte before 0", 4, BYTES("1 1 0 0 0 /\n"), 4},
    {"the byte behind 9", 4, BYTES("1 1 0 0 0 :\n"), 4},
    {"byte 255", 4, BYTES("1 1 0 0 0 \377\n"), 4},
    {"a point", 4, BYTES("1 1 0 0 0 0.\n"), 4},
    {"00", 4, BYTES("1 1 00 0 0 0\n"), 4},
    {"01", 4, BYTES("01 1 0 0 0 0\n"), 4},
    {"01 for T", 1, BYTES("02 6 3\n"), 1},
    {"01 for a width", 2, BYTES("1 01\n"), 2},
    {"a constant 02", 11, BYTES("3 0 0 1 2 0 02\n"), 11},
    {"a constant -02", 11, BYTES("3 0 0 1 2 0 -02\n"), 11},
    {"a constant 00", 11, BYTES("3 0 0 1 2 0 00\n"), 11},
    {"a constant -0", 11, BYTES("3 0 0 1 2 0 -0\n"), 11},
    {"a constant +1", 11, BYTES("3 0 0 1 2 0 +1\n"), 11},
    {"a constant --1", 11, BYTES("3 0 0 1 2 0 --1\n"), 11},
    {"a constant 1-", 11, BYTES("3 0 0 1 2 0 1-\n"), 11},
    {"a minus alone", 11, BYTES("3 0 0 1 2 0 -\n"), 11},
    {"a minus and a space", 11, BYTES("3 0 0 1 2 0 - 1\n"), 11},
    {"-0 where no constant stands", 11, BYTES("3 0 0 -0 2 0 2\n"), 11},
    {"+1", 4, BYTES("1 +1 0 0 0 0\n"), 4},
    {"a minus in a node", 4, BYTES("1 -1 0 0 0 0\n"), 4},
    {"a minus in the fourth place of a node, behind a 2", 4, BYTES("1 2 0 -1 0 0\n"), 4},
    {"a minus in T", 1, BYTES("-2 6 3\n"), 1},
    {"a minus in a width", 2, BYTES("1 -1\n"), 2},
    {"a minus in a tag", 11, BYTES("-3 0 0 1 2 0 2\n"), 11},
    {"a minus in a term's first word", 11, BYTES("3 0 0 1 -2 0 2\n"), 11},
    {"a minus in a term's second word", 11, BYTES("3 0 0 1 2 -1 2\n"), 11},
    {"a minus in the third word of a column", 11, BYTES("3 0 0 -1 2 0 2\n"), 11},
    {"a minus behind a second word 2", 11, BYTES("3 0 2 -1 2 0 2\n"), 11},
    {"a minus behind a tag 2", 11, BYTES("2 0 0 -1 2 0 2\n"), 11},
    {"a minus behind the other term's 2", 11, BYTES("3 2 0 1 0 0 -2\n"), 11},
    {"a minus behind 12", 11, BYTES("3 12 0 -1 2 0 2\n"), 11},
    {"4294967296 in a node", 3, BYTES("1 0 0 0 0 4294967296\n"), 3},
    {"4294967296 in an item", 9, BYTES("4294967296 0 0 0 1 0 0\n"), 9},
    {"4294967296 in a column", 9, BYTES("1 0 0 4294967296 1 0 0\n"), 9},
    {"10000000000", 3, BYTES("10000000000 0 0 0 0 0\n"), 3},
    {"2^64", 3, BYTES("18446744073709551616 0 0 0 0 0\n"), 3},
    {"2^64 + 1 for T", 1, BYTES("18446744073709551617 6 3\n"), 1},
    {"4294967298 for T", 1, BYTES("4294967298 6 3\n"), 1},
    {"4294967297 for a width", 2, BYTES("4294967297 1\n"), 2},
    {"a constant of 2^31", 11, BYTES("3 0 0 1 2 0 2147483648\n"), 11},
    {"a constant of -2^31 - 1", 11, BYTES("3 0 0 1 2 0 -2147483649\n"), 11},
    {"4294967291 for -5", 11, BYTES("3 0 0 1 2 0 4294967291\n"), 11},
    {"a first constant of 2^31", 11, BYTES("3 2 0 2147483648 2 0 2\n"), 11},
    {"a first constant of -2^31 - 1", 11, BYTES("3 2 0 -2147483649 2 0 2\n"), 11},
    {"a constant of -2^32", 11, BYTES("3 0 0 1 2 0 -4294967296\n"), 11},
    {"T 0", 1, BYTES("0 6 3\n"), 1},
    {"T 1 of two widths", 1, BYTES("1 6 3\n"), 2},
    {"T 17", 1, BYTES("17 6 3\n"), 1},
    {"N 0", 1, BYTES("2 0 3\n"), 1},
    {"N 5 of six nodes", 1, BYTES("2 5 3\n"), 8},
    {"N 7 of six nodes", 1, BYTES("2 7 3\n"), 9},
    {"N 257", 1, BYTES("2 257 3\n"), 1},
    {"I 2 of three items", 1, BYTES("2 6 2\n"), 11},
    {"I 4 of three items", 1, BYTES("2 6 4\n"), 12},
    {"I 2001", 1, BYTES("2 6 2001\n"), 1},
    {"width 0", 2, BYTES("1 0\n"), 2},
    {"width 65", 2, BYTES("65 1\n"), 2},
    {"T 17 before a bad width", 1, BYTES("17 6 3\n0 0\n"), 1},
    {"bad widths before a bad node", 2, BYTES("1\n-\n"), 2},
    {"a bad node before a bad item", 8, BYTES("2 4 0 0 2 x\n1 0 0\n"), 8},
    {"a good node before a bad item", 8, BYTES("2 4 0 0 2 1\n1 0 0\n"), 9},
    {"a bad last line before a surplus one", 11, BYTES("3 0 0 1 2 0 \n1\n"), 11},
    {"a good last line before a surplus one", 11, BYTES("3 0 0 1 2 0 2\n1\n"), 12},
};

static void damages(void) {
    for (size_t i = 0; i < sizeof DAMAGES / sizeof *DAMAGES; i++) {
        const damage *given = DAMAGES + i;
        length = 0;
        put_lines(1, given->line - 1);
        put(given->bytes, given->count);
        put_lines(given->line + 1, LINES);
        bad(given->name, text, length, given->refused_at);
    }
    bad("no bytes", NULL, 0, 1);
    for (int lines = 1; lines < LINES; lines++) {
        length = 0;
        put_lines(1, lines);
        bad("S cut behind a line", text, length, lines + 1);
        bad("S cut before a newline", text, length - 1, lines);
    }
}

/* S with another line and its words, which the reader takes, plan or not. */
static const struct {
    const char *name;
    int line;
    const char *bytes;
    uint32_t words[ITEM];
} CHANGES[] = {
    {"S", 1, "2 6 3\n", {0}},
    {"4294967295 in a node", 3, "4294967295 4294967295 0 9 10 4294967295\n", {UINT32_MAX, UINT32_MAX, 0, 9, 10, UINT32_MAX}},
    {"4294967295 in an item", 9, "4294967295 4294967295 1 4294967295 0 7 4294967295\n", {UINT32_MAX, UINT32_MAX, 1, UINT32_MAX, 0, 7, UINT32_MAX}},
    {"the least constants", 11, "3 2 0 -2147483648 2 0 -2147483648\n", {3, 2, 0, 1u << 31, 2, 0, 1u << 31}},
    {"the largest constants", 11, "3 2 0 2147483647 2 0 2147483647\n", {3, 2, 0, INT32_MAX, 2, 0, INT32_MAX}},
    {"constants 0 and -1", 11, "3 2 0 0 2 0 -1\n", {3, 2, 0, 0, 2, 0, UINT32_MAX}},
    {"-5", 11, "3 0 0 1 2 0 -5\n", {3, 0, 0, 1, 2, 0, 4294967291}},
    {"4294967291 where no constant stands", 11, "3 0 0 4294967291 1 2 4294967291\n", {3, 0, 0, 4294967291, 1, 2, 4294967291}},
    {"a constant in a count, and a second word that is not 0", 10, "13 2 4294967295 -10 22 2 2147483648\n", {13, 2, UINT32_MAX, UINT32_MAX - 9, 22, 2, 1u << 31}},
    {"widths of 1 and 64", 2, "1 64\n", {1, 64}},
    {"no operator", 8, "0 4294967291 2 2147483648 2 2147483647\n", {0, 4294967291, 2, 1u << 31, 2, INT32_MAX}},
};

static void changes(void) {
    for (size_t i = 0; i < sizeof CHANGES / sizeof *CHANGES; i++) {
        int line = CHANGES[i].line;
        uint32_t words[67];
        memcpy(words, S, sizeof S);
        if (line == 2) memcpy(words + 8, CHANGES[i].words, 2 * sizeof *words);
        else if (line > 8) memcpy(words + 46 + ITEM * (line - 9), CHANGES[i].words, ITEM * sizeof *words);
        else if (line > 2) memcpy(words + 10 + NODE * (line - 3), CHANGES[i].words, NODE * sizeof *words);
        length = 0;
        put_lines(1, line - 1);
        put_text(CHANGES[i].bytes);
        put_lines(line + 1, LINES);
        good(CHANGES[i].name, words, 67, text, length);
    }
}

static uint32_t table[8 + 17 + NODE * 257 + ITEM * 2001];

/* So many tables of one width, nodes and items, all words behind the widths equal; the text has them as they are given. */
static void build(uint32_t tables, uint32_t nodes, uint32_t items, uint32_t width, uint32_t word) {
    uint32_t nodes_at = 8 + tables, items_at = nodes_at + NODE * nodes, total = items_at + ITEM * items;
    const uint32_t header[8] = {total, tables, 8, nodes, nodes_at, items, items_at, 0};
    memcpy(table, header, sizeof header);
    length = sprintf(text, "%u %u %u\n", tables, nodes, items);
    for (uint32_t k = 8; k < nodes_at; k++) {
        table[k] = width;
        length += sprintf(text + length, "%u%c", width, k + 1 == nodes_at ? '\n' : ' ');
    }
    if (tables == 0) put_text("\n");
    for (uint32_t k = nodes_at; k < total; k++) {
        int last = k < items_at ? (k + 1 - nodes_at) % NODE == 0 : (k + 1 - items_at) % ITEM == 0;
        table[k] = word;
        length += sprintf(text + length, "%u%c", word, last ? '\n' : ' ');
    }
}

/* A limit that is kept or passed: then the writer gives 2 and the reader 16 with the line. */
static const struct {
    const char *name;
    uint32_t tables, nodes, items, width, refused_at;
} LIMITS[] = {
    {"T 0", 0, 1, 1, 1, 1}, {"T 1", 1, 1, 1, 1, 0}, {"T 7", 7, 1, 1, 2, 0}, {"T 16", 16, 1, 1, 1, 0}, {"T 17", 17, 1, 1, 1, 1},
    {"N 0", 1, 0, 1, 1, 1}, {"N 256", 1, 256, 1, 1, 0}, {"N 257", 1, 257, 1, 1, 1},
    {"I 0", 1, 1, 0, 1, 0}, {"I 2000", 1, 1, 2000, 1, 0}, {"I 2001", 1, 1, 2001, 1, 1},
    {"width 0", 1, 1, 0, 0, 2}, {"width 64", 1, 1, 0, 64, 0}, {"width 65", 1, 1, 0, 65, 2},
    {"all at their limits", 16, 256, 2000, 64, 0},
};

static void limits(void) {
    for (size_t i = 0; i < sizeof LIMITS / sizeof *LIMITS; i++) {
        build(LIMITS[i].tables, LIMITS[i].nodes, LIMITS[i].items, LIMITS[i].width, 7);
        if (LIMITS[i].refused_at == 0) {
            good(LIMITS[i].name, table, table[0], text, length);
            continue;
        }
        bad(LIMITS[i].name, text, length, LIMITS[i].refused_at);
        writes(LIMITS[i].name, table, table[0], TUNESATURN_LONGEST_TEXT, 2, NULL, 0);
        writes(LIMITS[i].name, table, table[0], 0, 2, NULL, 0);
    }
    build(16, 256, 2000, 64, UINT32_MAX);
    if (length != TUNESATURN_LONGEST_TEXT || table[0] != TUNESATURN_LONGEST) { printf("the longest text has %zu bytes\n", length); wrong = 1; }
    good("the longest text", table, table[0], text, length);
}

/* The bytes that are read, and one more, whatever they hold. */
static void lengths(void) {
    memset(text, '7', sizeof text);
    length = 0;
    put_lines(1, LINES);
    bad("S and bytes up to 262,144", text, FULL, 12);
    bad("S and bytes up to 262,145", text, FULL + 1, 0);
    memset(text, '\n', sizeof text);
    length = 0;
    put_lines(1, LINES);
    bad("S and newlines up to 262,144", text, FULL, 12);
    bad("S and newlines up to 262,145", text, FULL + 1, 0);
    memset(text, '7', sizeof text);
    bad("262,144 digits", text, FULL, 1);
    bad("262,145 digits", text, FULL + 1, 0);
}

/* The writer's 1, 2 and 17, in this order. */
static void refusals(void) {
    uint32_t words[68];
    memcpy(words, S, sizeof S);
    writes("a word short", words, 66, TUNESATURN_LONGEST_TEXT, 1, NULL, 0);
    words[67] = 0;
    writes("a word too many", words, 68, TUNESATURN_LONGEST_TEXT, 1, NULL, 0);
    writes("seven words", words, 7, 0, 1, NULL, 0);
    expect("no words and no room", "written", tunesaturn_write_text(NULL, 0, NULL, 0), 1, 0, 0);
    for (int place = 0; place < 8; place++) {
        words[place]++;
        writes("a header word one more", words, 67, TUNESATURN_LONGEST_TEXT, 1, NULL, 0);
        writes("a header word one more, no room", words, 67, 0, 1, NULL, 0);
        words[place]--;
    }
    words[8] = 65;
    writes("a width of 65", words, 67, TUNESATURN_LONGEST_TEXT, 2, NULL, 0);
    words[7] = 1;
    writes("1 before 2", words, 67, TUNESATURN_LONGEST_TEXT, 1, NULL, 0);
    expect("S and no room", "written", tunesaturn_write_text(S, 67, NULL, 0), 17, 0, 0);
    length = 0;
    put_lines(1, LINES);
    expect("S and no room", "read", tunesaturn_read_text((const uint8_t *)text, length, NULL, 0), 17, 0, 0);
}

int main(void) {
    changes();
    damages();
    limits();
    lengths();
    refusals();
    if (!wrong) printf("texts are written and read as they should be\n");
    return wrong;
}
