/* Calls each function of include/lekhyundo.h, on document 01's worked pairs as document 02 changes them and on an example of each
 * change. Built as C99 and as C++ by tests/header; prints what is wrong and how many checks there were. */
#include "lekhyundo.h"

#include <stdio.h>
#include <string.h>

enum { ROOM = 16, SPARE = 3 };

static unsigned checks, failures;

/* What a call must leave unwritten or overwrite, as the case may be. */
static const uint64_t UNSET = 0xa5a5a5a5;

static const uint8_t *bytes(const char *text) { return (const uint8_t *)text; }

static void same(const char *what, const uint64_t *got, const uint64_t *want, size_t length)
{
    size_t i;
    checks++;
    if (memcmp(got, want, length * sizeof *got) == 0) {
        return;
    }
    failures++;
    printf("%s:", what);
    for (i = 0; i < length; i++) {
        printf(" %lu", (unsigned long)got[i]);
    }
    printf(" not");
    for (i = 0; i < length; i++) {
        printf(" %lu", (unsigned long)want[i]);
    }
    printf("\n");
}

static void same_number(const char *what, uint64_t got, uint64_t want) { same(what, &got, &want, 1); }

static void unset(uint64_t *numbers, size_t length)
{
    while (length > 0) {
        numbers[--length] = UNSET;
    }
}

/* A source, its answer and, from one of its rows on, rows that must stand there; zeros behind the count. */
struct pair {
    char entry;
    const char *source;
    uint64_t answer[4];
    size_t first, rows;
    uint64_t row[8][LEKHYUNDO_WIDTH];
};

#define OPEN_32 "(((((((((((((((((((((((((((((((("

static const struct pair PAIRS[] = {
    {'a', "", {0, 0, 0, 1}, 0, 1, {{LEKHYUNDO_KIND_TREE, 0, 0, 0, 0, 0, 1}}},
    {'b', "AS4294967295", {0, 0, 12, 1}, 0, 1, {{LEKHYUNDO_KIND_ASN, 0, 12, 0, 4294967295u, 0, 1}}},
    {'b', "AS4294967296", {LEKHYUNDO_REFUSAL_VALUELESS, 0, 12, 0}, 0, 0, {{0}}},
    {'b', "18446744073709551615u64", {0, 0, 23, 1}, 0, 1,
     {{LEKHYUNDO_KIND_INTEGER, 0, 23, 0, UINT64_MAX, LEKHYUNDO_TYPE_U64, 1}}},
    {'b', "300u8", {LEKHYUNDO_REFUSAL_VALUELESS, 0, 5, 0}, 0, 0, {{0}}},
    {'b', "1.2.3.", {LEKHYUNDO_REFUSAL_VALUELESS, 0, 6, 0}, 0, 0, {{0}}},
    {'b', "::1", {0, 0, 3, 1}, 0, 1, {{LEKHYUNDO_KIND_IPV6, 0, 3, 0, 0, 1, 1}}},
    {'b', "::ffff:1.2.3.4", {0, 0, 14, 1}, 0, 1, {{LEKHYUNDO_KIND_IPV6, 0, 14, 0, 0, 0xffff01020304u, 1}}},
    {'b', "\"a\"", {LEKHYUNDO_REFUSAL_NO_TOKEN, 0, 1, 0}, 0, 0, {{0}}},
    {'b', "\"a\" ", {0, 0, 4, 1}, 0, 1, {{LEKHYUNDO_KIND_STRING, 0, 3, 0, 0, 0, 1}}},
    {'b', "1+2*3", {0, 0, 5, 5}, 3, 2,
     {{LEKHYUNDO_KIND_BINARY, 2, 5, 2, 0, 11, 3}, {LEKHYUNDO_KIND_BINARY, 0, 5, 2, 0, 9, 5}}},
    {'b', "a==b==c", {LEKHYUNDO_REFUSAL_UNUSABLE, 4, 6, 0}, 0, 0, {{0}}},
    {'b', "if x {y: 1} {}", {LEKHYUNDO_REFUSAL_UNUSABLE, 7, 8, 0}, 0, 0, {{0}}},
    {'b', OPEN_32 "(", {LEKHYUNDO_REFUSAL_TOO_DEEP, 32, 33, 0}, 0, 0, {{0}}},
    {'a', "const A: u8 = 1;", {0, 0, 16, 7}, 0, 7,
     {{LEKHYUNDO_KIND_NAME, 6, 7, 0, 0, 0, 1},
      {LEKHYUNDO_KIND_NAME, 9, 11, 0, 0, 0, 1},
      {LEKHYUNDO_KIND_PATH, 9, 11, 1, 0, 0, 2},
      {LEKHYUNDO_KIND_PATH_TYPE, 9, 11, 1, 0, 0, 3},
      {LEKHYUNDO_KIND_INTEGER, 14, 15, 0, 1, LEKHYUNDO_TYPE_NONE, 1},
      {LEKHYUNDO_KIND_CONST, 0, 16, 3, 0, 0, 6},
      {LEKHYUNDO_KIND_TREE, 0, 16, 1, 0, 0, 7}}},
    {'b', "1=2", {LEKHYUNDO_REFUSAL_NO_PATH, 0, 1, 0}, 0, 0, {{0}}},
    {'b', "1+", {LEKHYUNDO_REFUSAL_ENDS_EARLY, 2, 2, 0}, 0, 0, {{0}}},
    {'a', "\xc3\xa9", {LEKHYUNDO_REFUSAL_HIGH_BYTE, 0, 1, 0}, 0, 0, {{0}}},
    {'a', "#!", {LEKHYUNDO_REFUSAL_SHEBANG, 0, 2, 0}, 0, 0, {{0}}},
    {'b', "f\"a{x}\"", {0, 0, 7, 4}, 0, 4,
     {{LEKHYUNDO_KIND_TEXT, 2, 3, 0, 1, 0, 1},
      {LEKHYUNDO_KIND_NAME, 4, 5, 0, 0, 0, 1},
      {LEKHYUNDO_KIND_PATH, 4, 5, 1, 0, 0, 2},
      {LEKHYUNDO_KIND_F_STRING, 0, 6, 2, 0, 0, 4}}}};

static void read_pair(const struct pair *pair)
{
    uint64_t table[ROOM * LEKHYUNDO_WIDTH + SPARE], zeros[ROOM * LEKHYUNDO_WIDTH + SPARE], answer[5];
    size_t length = sizeof table / sizeof *table, used = pair->answer[0] == 0 ? pair->answer[3] * LEKHYUNDO_WIDTH : 0;
    unset(table, length);
    unset(answer, 5);
    memset(zeros, 0, sizeof zeros);
    (pair->entry == 'a' ? lekhyundo_tree : lekhyundo_expression)(bytes(pair->source), strlen(pair->source), table, length, answer, 4);
    same(pair->source, answer, pair->answer, 4);
    same_number("a fifth number", answer[4], UNSET);
    same(pair->source, table + pair->first * LEKHYUNDO_WIDTH, pair->row[0], pair->rows * LEKHYUNDO_WIDTH);
    same(pair->source, table + used, zeros, length - used);
}

static void room(void)
{
    uint64_t table[3 * LEKHYUNDO_WIDTH], answer[4];
    const uint64_t two[] = {LEKHYUNDO_REFUSAL_NO_ROOM, 0, 0, 3}, three[] = {0, 0, 3, 3}, zeros[2 * LEKHYUNDO_WIDTH] = {0};
    static uint8_t blanks[LEKHYUNDO_MOST_BYTES + 1];
    const uint64_t longer[] = {LEKHYUNDO_REFUSAL_TOO_LONG, 65535, 65535, 0}, most[] = {0, 0, 65535, 1};
    unset(table, 3 * LEKHYUNDO_WIDTH);
    lekhyundo_expression(bytes("1+2"), 3, table, 2 * LEKHYUNDO_WIDTH, answer, 4);
    same("1+2 in two rows", answer, two, 4);
    same("1+2 in two rows", table, zeros, 2 * LEKHYUNDO_WIDTH);
    lekhyundo_expression(bytes("1+2"), 3, table, 3 * LEKHYUNDO_WIDTH, answer, 4);
    same("1+2 in three rows", answer, three, 4);
    memset(blanks, ' ', sizeof blanks);
    lekhyundo_tree(blanks, LEKHYUNDO_MOST_BYTES, table, LEKHYUNDO_WIDTH, answer, 4);
    same("as long as may be", answer, most, 4);
    lekhyundo_tree(blanks, sizeof blanks, table, LEKHYUNDO_WIDTH, answer, 4);
    same("longer", answer, longer, 4);
}

static void token_lists(void)
{
    struct lekhyundo_token list[3];
    uint64_t answer[4];
    const uint64_t taken[] = {0, 0, 6, 2}, no_room[] = {LEKHYUNDO_REFUSAL_NO_ROOM, 0, 0, 2};
    const uint64_t f_string[] = {LEKHYUNDO_REFUSAL_F_STRING, 2, 4, 0};
    list[2].code = UNSET;
    lekhyundo_token_list(bytes("if ::1"), 6, list, 3, answer, 4);
    same("the tokens of `if ::1`", answer, taken, 4);
    same_number("its first token", list[0].code, LEKHYUNDO_TOKEN_KEYWORD);
    same_number("its second token", list[1].code, LEKHYUNDO_TOKEN_IPV6);
    same_number("where that starts", list[1].start, 3);
    same_number("where that ends", list[1].end, 6);
    same_number("behind it", list[2].code, 0);
    lekhyundo_tokens(bytes("if ::1"), 6, 1, answer, 4);
    same("room for one token", answer, no_room, 4);
    lekhyundo_tokens(bytes("a f\"\""), 5, 9, answer, 4);
    same("an f-string's token", answer, f_string, 4);
}

struct word {
    const char *text;
    uint64_t code, word;
};

#define SIGNS(text, name) {text, LEKHYUNDO_TOKEN_TWO_SIGNS, LEKHYUNDO_WORD_##name}
#define SIGN(text, name) {text, LEKHYUNDO_TOKEN_ONE_SIGN, LEKHYUNDO_WORD_##name}
#define KEYWORD(text, name) {text, LEKHYUNDO_TOKEN_KEYWORD, LEKHYUNDO_WORD_##name}
#define LITERAL(text, name) {text, LEKHYUNDO_TOKEN_##name, LEKHYUNDO_WORD_##name}

static const struct word WORDS[] = {
    LITERAL("::1", IPV6), LITERAL("1.2.3.4", IPV4), LITERAL("AS1", ASN), LITERAL("0xf", HEX), LITERAL("1", INTEGER),
    LITERAL("1.5", FLOAT), LITERAL("\"a\" ", STRING), LITERAL("'a' ", CHAR), LITERAL("true", BOOL), LITERAL("false", BOOL),
    LITERAL("testing", NAME), {"_", LEKHYUNDO_TOKEN_NAME, LEKHYUNDO_WORD_UNDERSCORE},
    SIGNS("==", EQ_EQ), SIGNS("=>", FAT_ARROW), SIGNS("!=", BANG_EQ), SIGNS("<=", ANGLE_LEFT_EQ), SIGNS(">=", ANGLE_RIGHT_EQ),
    SIGNS("&&", AMP_AMP), SIGNS("||", PIPE_PIPE), SIGNS("->", ARROW), SIGNS("+=", PLUS_EQ), SIGNS("-=", MINUS_EQ),
    SIGNS("*=", STAR_EQ), SIGNS("/=", SLASH_EQ), SIGNS("%=", PERCENT_EQ),
    SIGN("{", CURLY_LEFT), SIGN("}", CURLY_RIGHT), SIGN("(", ROUND_LEFT), SIGN(")", ROUND_RIGHT), SIGN("[", SQUARE_LEFT),
    SIGN("]", SQUARE_RIGHT), SIGN(":", COLON), SIGN(";", SEMI_COLON), SIGN(",", COMMA), SIGN(".", PERIOD), SIGN("=", EQ),
    SIGN("?", QUESTION_MARK), SIGN("!", BANG), SIGN("-", HYPHEN), SIGN("+", PLUS), SIGN("*", STAR), SIGN("/", SLASH),
    SIGN("%", PERCENT), SIGN("<", ANGLE_LEFT), SIGN(">", ANGLE_RIGHT),
    KEYWORD("accept", ACCEPT), KEYWORD("const", CONST), KEYWORD("dep", DEP), KEYWORD("else", ELSE), KEYWORD("enum", ENUM),
    KEYWORD("filter", FILTER), KEYWORD("filtermap", FILTERMAP), KEYWORD("for", FOR), KEYWORD("fn", FN), KEYWORD("if", IF),
    KEYWORD("import", IMPORT), KEYWORD("in", IN), KEYWORD("let", LET), KEYWORD("match", MATCH), KEYWORD("pkg", PKG),
    KEYWORD("record", RECORD), KEYWORD("reject", REJECT), KEYWORD("return", RETURN), KEYWORD("std", STD),
    KEYWORD("super", SUPER), KEYWORD("test", TEST), KEYWORD("while", WHILE)};

static void steps(void)
{
    size_t i;
    uint64_t out[5], want[5];
    const uint64_t none[] = {LEKHYUNDO_REFUSAL_NO_TOKEN, 1, 2, 0, LEKHYUNDO_WORD_NONE};
    const uint64_t end[] = {LEKHYUNDO_REFUSAL_ENDS_EARLY, 3, 3, 0, LEKHYUNDO_WORD_NONE};
    for (i = 0; i < sizeof WORDS / sizeof *WORDS; i++) {
        size_t length = strlen(WORDS[i].text);
        want[0] = 0;
        want[1] = 0;
        want[2] = length - (WORDS[i].text[length - 1] == ' ');
        want[3] = WORDS[i].code;
        want[4] = WORDS[i].word;
        lekhyundo_step(bytes(WORDS[i].text), length, 0, out, 5);
        same(WORDS[i].text, out, want, 5);
    }
    lekhyundo_step(bytes("a$ "), 3, 1, out, 5);
    same("no token", out, none, 5);
    lekhyundo_step(bytes("a  "), 3, 1, out, 5);
    same("the end", out, end, 5);
}

static void names(void)
{
    const uint8_t *source = bytes("const A: u8 = 1;");
    same_number("a name", lekhyundo_name(source, 16, LEKHYUNDO_KIND_NAME, 9, 11), 2);
    same_number("a path", lekhyundo_name(source, 16, LEKHYUNDO_KIND_PATH, 9, 11), 0);
    same_number("past the end", lekhyundo_name(source, 16, LEKHYUNDO_KIND_NAME, 9, 17), 0);
}

static void strings(void)
{
    uint8_t out[8];
    uint64_t answer[4];
    const uint64_t decoded[] = {0, 0, 9, 3}, open[] = {LEKHYUNDO_REFUSAL_VALUELESS, 0, 2, 0};
    memset(out, 0xa5, sizeof out);
    lekhyundo_decode(bytes("\"a\\u{e9}\""), 9, out, sizeof out, answer, 4);
    same("a string", answer, decoded, 4);
    same_number("its bytes", memcmp(out, "a\xc3\xa9\0\0\0\0\0", sizeof out) == 0, 1);
    lekhyundo_decode(bytes("\"a"), 2, out, sizeof out, answer, 4);
    same("a string without end", answer, open, 4);
    same_number("zeros", memcmp(out, "\0\0\0\0\0\0\0\0", sizeof out) == 0, 1);
}

static void values(void)
{
    uint64_t out[5];
    const uint64_t hex[] = {0, LEKHYUNDO_KIND_INTEGER, 255, LEKHYUNDO_TYPE_NONE};
    const uint64_t none[] = {LEKHYUNDO_REFUSAL_VALUELESS, 0, 0, 0};
    const uint64_t tenth[] = {0, 0, 6, 32, 0x3dcccccd}, whole[] = {LEKHYUNDO_REFUSAL_VALUELESS, 0, 1, 0, 0};
    const uint64_t digits[] = {LEKHYUNDO_REFUSAL_TOO_MANY_DIGITS, 0, 22, 0, 0};
    lekhyundo_literal(bytes("0xff"), 4, LEKHYUNDO_TOKEN_HEX, 0, 4, out, 4);
    same("0xff", out, hex, 4);
    lekhyundo_literal(bytes("0xff"), 4, LEKHYUNDO_TOKEN_INTEGER, 0, 4, out, 4);
    same("0xff as an integer", out, none, 4);
    lekhyundo_float(bytes("0.1f32"), 6, out, 5);
    same("0.1f32", out, tenth, 5);
    lekhyundo_float(bytes("1"), 1, out, 5);
    same("1 as a float", out, whole, 5);
    lekhyundo_float(bytes("0.00000000000000000001"), 22, out, 5);
    same("a float of 20 places", out, digits, 5);
}

struct suffix {
    const char *literal;
    uint64_t kind, type;
};

#define INTEGER(text, name) {"1" text, LEKHYUNDO_KIND_INTEGER, LEKHYUNDO_TYPE_##name}
#define FLOAT(text, name) {"1" text, LEKHYUNDO_KIND_FLOAT, LEKHYUNDO_TYPE_##name}

static const struct suffix SUFFIXES[] = {
    INTEGER("", NONE), INTEGER("i8", I8), INTEGER("i16", I16), INTEGER("i32", I32), INTEGER("i64", I64), INTEGER("u8", U8),
    INTEGER("u16", U16), INTEGER("u32", U32), INTEGER("u64", U64), FLOAT("f32", F32), FLOAT("f64", F64), FLOAT(".5", NONE)};

static void types(void)
{
    size_t i;
    uint64_t row[LEKHYUNDO_WIDTH], answer[4];
    for (i = 0; i < sizeof SUFFIXES / sizeof *SUFFIXES; i++) {
        lekhyundo_expression(bytes(SUFFIXES[i].literal), strlen(SUFFIXES[i].literal), row, LEKHYUNDO_WIDTH, answer, 4);
        same_number(SUFFIXES[i].literal, answer[LEKHYUNDO_ANSWER_NUMBER], LEKHYUNDO_REFUSAL_NONE);
        same_number(SUFFIXES[i].literal, row[LEKHYUNDO_ROW_KIND], SUFFIXES[i].kind);
        same_number(SUFFIXES[i].literal, row[LEKHYUNDO_ROW_DETAIL], SUFFIXES[i].type);
    }
}

struct operation {
    const char *source;
    uint64_t operator_number;
};

#define OPERATOR(sign, name) {"1" sign "2", LEKHYUNDO_OPERATOR_##name}

static const struct operation OPERATIONS[] = {
    OPERATOR("||", OR), OPERATOR("&&", AND), OPERATOR("==", EQUAL), OPERATOR("!=", NOT_EQUAL), OPERATOR("<", LESS),
    OPERATOR("<=", LESS_EQUAL), OPERATOR(">", GREATER), OPERATOR(">=", GREATER_EQUAL), OPERATOR("+", ADD), OPERATOR("-", SUBTRACT),
    OPERATOR("*", MULTIPLY), OPERATOR("/", DIVIDE), OPERATOR("%", REMAINDER)};

static void operators(void)
{
    size_t i;
    uint64_t table[3 * LEKHYUNDO_WIDTH], answer[4];
    const uint64_t *row = table + 2 * LEKHYUNDO_WIDTH;
    for (i = 0; i < sizeof OPERATIONS / sizeof *OPERATIONS; i++) {
        const char *source = OPERATIONS[i].source;
        lekhyundo_expression(bytes(source), strlen(source), table, 3 * LEKHYUNDO_WIDTH, answer, 4);
        same_number(source, row[LEKHYUNDO_ROW_KIND], LEKHYUNDO_KIND_BINARY);
        same_number(source, row[LEKHYUNDO_ROW_DETAIL], OPERATIONS[i].operator_number);
    }
}

static void leaves(void)
{
    uint64_t table[7 * LEKHYUNDO_WIDTH], answer[4];
    const uint64_t type[] = {0, 9, 11, 1}, none[] = {LEKHYUNDO_REFUSAL_NO_LEAF, 0, 0, 0};
    const uint64_t wrong[] = {LEKHYUNDO_REFUSAL_WRONG_SIZE, 0, 0, 0};
    lekhyundo_tree(bytes("const A: u8 = 1;"), 16, table, 7 * LEKHYUNDO_WIDTH, answer, 4);
    lekhyundo_at(table, 7 * LEKHYUNDO_WIDTH, 10, answer, 4);
    same("the leaf at 10", answer, type, 4);
    lekhyundo_at(table, 7 * LEKHYUNDO_WIDTH, 11, answer, 4);
    same("no leaf at 11", answer, none, 4);
    table[4 * LEKHYUNDO_WIDTH + LEKHYUNDO_ROW_SIZE] = 0;
    lekhyundo_at(table, 7 * LEKHYUNDO_WIDTH, 14, answer, 4);
    same("a size of 0", answer, wrong, 4);
}

static void constants(void)
{
    static uint64_t table[32 * LEKHYUNDO_WIDTH], list[LEKHYUNDO_MOST_INSTRUCTIONS * LEKHYUNDO_INSTRUCTION];
    uint64_t answer[6];
    const char *source = "const A: i8 = -7 / 2; const B: f64 = -5.5 % 2.0; const C: bool = 1 / 0 == 1;";
    const char *truth = "const A: bool = 1 < 2;";
    const uint64_t yes[] = {0, 0, 22, 3, LEKHYUNDO_TYPE_BOOL, 1};
    const uint64_t whole[] = {0, 0, 76, 4, LEKHYUNDO_TYPE_I8, 0xfffffffffffffffdu};
    const uint64_t real[] = {0, 0, 76, 4, LEKHYUNDO_TYPE_F64, 0xbff8000000000000u};
    const uint64_t zero[] = {LEKHYUNDO_REFUSAL_ZERO_DIVISOR, 65, 70, 0, 0, 0};
    const uint64_t none[] = {LEKHYUNDO_REFUSAL_NOT_TAKEN, 0, 0, 0, 0, 0};
    const uint64_t instruction[] = {LEKHYUNDO_KIND_INTEGER, LEKHYUNDO_TYPE_I8, 7, 15, 16};
    size_t room = sizeof list / sizeof *list, size = sizeof table / sizeof *table;
    lekhyundo_constant(bytes(source), 76, 0, table, size, list, room, answer, 6);
    same("-7 / 2", answer, whole, 6);
    same("its first instruction", list, instruction, LEKHYUNDO_INSTRUCTION);
    lekhyundo_constant(bytes(source), 76, 1, table, size, list, room, answer, 6);
    same("-5.5 % 2.0", answer, real, 6);
    lekhyundo_constant(bytes(source), 76, 2, table, size, list, room, answer, 6);
    same("1 / 0", answer, zero, 6);
    lekhyundo_constant(bytes(source), 76, 3, table, size, list, room, answer, 6);
    same("no such constant", answer, none, 6);
    lekhyundo_constant(bytes(truth), 22, 0, table, size, list, room, answer, 6);
    same("1 < 2", answer, yes, 6);
}

static void files(void)
{
    uint64_t table[ROOM * LEKHYUNDO_WIDTH + 1], answer[5];
    uint8_t file[500];
    const uint64_t written[] = {0, 0, 16, 424}, checked[] = {0, 0, 424, 7, 0};
    const uint64_t cut[] = {LEKHYUNDO_REFUSAL_UNFILLED, 0, 0, 0, 0}, index[] = {LEKHYUNDO_REFUSAL_WRONG_INDEX, 0, 1, 0, 0};
    const uint64_t row[] = {LEKHYUNDO_REFUSAL_WRONG_ROW, 0, 1, 0, 0};
    size_t size = sizeof table / sizeof *table;
    lekhyundo_table_write(bytes("const A: u8 = 1;"), 16, table, size, file, sizeof file, answer, 4);
    same("a file written", answer, written, 4);
    lekhyundo_table_check(file, 424, table, size, answer, 5);
    same("a file of ours", answer, checked, 5);
    lekhyundo_table_check(file, 423, table, size, answer, 5);
    same("a file cut short", answer, cut, 5);
    file[420]++;
    lekhyundo_table_check(file, 424, table, size, answer, 5);
    same("another index", answer, index, 5);
    file[4 + 16 + 4]++;
    lekhyundo_table_check(file, 424, table, size, answer, 5);
    same("another row", answer, row, 5);
}

static void salvages(void)
{
    uint64_t table[ROOM * LEKHYUNDO_WIDTH], ranges[2 * LEKHYUNDO_RANGE + 1], answer[5];
    const char *source = "fn f() {\nfn g() {}", *left = "         fn g() {}", *none = "#!", *two = "x\nfn(";
    const uint64_t kept[] = {0, 0, 18, 4, 1}, shebang[] = {LEKHYUNDO_REFUSAL_SHEBANG, 0, 2, 0, 0};
    const uint64_t rows[] = {LEKHYUNDO_REFUSAL_NO_ROOM, 0, 0, 4, 0}, many[] = {LEKHYUNDO_REFUSAL_NO_ROOM, 0, 0, 2, 0};
    const uint64_t range[] = {0, 9, LEKHYUNDO_REFUSAL_UNUSABLE, 9, 11, 0, 0, 0, 0, 0, 0};
    const uint64_t name[] = {LEKHYUNDO_KIND_NAME, 12, 13, 0, 0, 0, 1}, zeros[2 * LEKHYUNDO_RANGE + 1] = {0};
    uint8_t text[18];
    size_t size = sizeof table / sizeof *table, room = sizeof ranges / sizeof *ranges;
    memcpy(text, source, 18);
    unset(ranges, room);
    lekhyundo_salvage(text, 18, table, size, ranges, room, answer, 5);
    same("a function salvaged", answer, kept, 5);
    same("its range", ranges, range, room);
    same("its first row", table, name, LEKHYUNDO_WIDTH);
    same_number("what is left", (uint64_t)memcmp(text, left, 18), 0);
    memcpy(text, source, 18);
    unset(ranges, room);
    lekhyundo_salvage(text, 18, table, 3 * LEKHYUNDO_WIDTH, ranges, 0, answer, 5);
    same("no room for rows nor ranges", answer, rows, 5);
    same_number("ranges that were not lent", ranges[0], UNSET);
    memcpy(text, two, 5);
    lekhyundo_salvage(text, 5, table, size, ranges, 2 * LEKHYUNDO_RANGE - 1, answer, 5);
    same("no room for ranges", answer, many, 5);
    same("zeros for them", ranges, zeros, 2 * LEKHYUNDO_RANGE - 1);
    memcpy(text, none, 2);
    lekhyundo_salvage(text, 2, table, size, ranges, room, answer, 5);
    same("a shebang", answer, shebang, 5);
    same_number("which stays", text[0], '#');
}

static void prints(void)
{
    uint64_t table[ROOM * LEKHYUNDO_WIDTH], plan[8 * LEKHYUNDO_PLAN + 1], answer[5];
    const char *source = "const A:b=(1);", *print = "const A : b = 1 ;\n", *test = "test t {}", *short_ = "const";
    const uint64_t printed[] = {0, 0, 14, 18, 0}, tested[] = {0, 0, 9, 11, 1}, early[] = {LEKHYUNDO_REFUSAL_ENDS_EARLY, 5, 5, 0, 0};
    const uint64_t rows[] = {LEKHYUNDO_REFUSAL_NO_ROOM, 0, 0, 7, 0}, bytes[] = {LEKHYUNDO_REFUSAL_NO_ROOM, 0, 0, 18, 0};
    const uint64_t name[] = {LEKHYUNDO_KIND_NAME, 6, 7, 0, 0, 0, 1}, zeros[8 * LEKHYUNDO_PLAN + 1] = {0};
    const uint8_t none[20] = {0};
    uint8_t text[20];
    size_t size = sizeof table / sizeof *table, room = sizeof plan / sizeof *plan;
    unset(plan, room);
    memset(text, 'x', 20);
    lekhyundo_print((const uint8_t *)source, 14, table, size, plan, room, text, 20, answer, 5);
    same("a constant printed", answer, printed, 5);
    same("its first row", table, name, LEKHYUNDO_WIDTH);
    same("its plan", plan, zeros, room);
    same_number("its print", (uint64_t)memcmp(text, print, 18), 0);
    same_number("zeros behind it", (uint64_t)memcmp(text + 18, none, 2), 0);
    lekhyundo_print((const uint8_t *)source, 14, table, size, plan, room, text, 17, answer, 5);
    same("no room for the print", answer, bytes, 5);
    same_number("zeros for it", (uint64_t)memcmp(text, none, 17), 0);
    lekhyundo_print((const uint8_t *)source, 14, table, size, plan, 7 * LEKHYUNDO_PLAN - 1, text, 20, answer, 5);
    same("no room for the plan", answer, rows, 5);
    same("zeros for the rows", table, zeros, LEKHYUNDO_WIDTH);
    lekhyundo_print((const uint8_t *)test, 9, table, size, plan, room, text, 20, answer, 5);
    same("a test printed", answer, tested, 5);
    lekhyundo_print((const uint8_t *)short_, 5, table, size, plan, room, text, 20, answer, 5);
    same("a source that ends early", answer, early, 5);
}

static void reports(void)
{
    const char *source = "fn f(,)";
    const char *lines = "a.roto:1:6: error[6]: ',' can't stand here\n  fn f(,)\n       ^\n  expected one of a name ')'\n";
    uint8_t room[7 + 16], text[128];
    size_t length = lekhyundo_report(bytes("a.roto"), 6, bytes(source), 7, LEKHYUNDO_REFUSAL_UNUSABLE, 5, 6, 0,
                                     room, sizeof room, text, sizeof text);
    same_number("a report's length", length, strlen(lines));
    same_number("a report", (uint64_t)memcmp(text, lines, strlen(lines)), 0);
    length = lekhyundo_report(bytes("a.roto"), 6, bytes(source), 7, LEKHYUNDO_REFUSAL_UNUSABLE, 5, 6, 0, room, sizeof room, text, 9);
    same_number("a report cut off", length, 9);
}

int main(void)
{
    size_t i;
    for (i = 0; i < sizeof PAIRS / sizeof *PAIRS; i++) {
        read_pair(PAIRS + i);
    }
    room();
    token_lists();
    steps();
    names();
    strings();
    values();
    types();
    operators();
    leaves();
    constants();
    files();
    salvages();
    prints();
    reports();
    printf("%u calls checked, %u wrong\n", checks, failures);
    return failures != 0;
}
