/* Lekhyundo: a proved reader of Roto route filters. The functions of liblekhyundo.a, which tools/library makes.
 *
 * A source, a table or an answer is lent as a pointer and the number of its elements; the pointer may be anything but must
 * not be null or unaligned, also for 0 elements, and nothing is kept of it. No function allocates, fails or asks anything
 * of the bytes. What each says is proved, but for the words of lekhyundo_report.
 *
 * (a) and (b) call themselves as deep as a source nests: little stack for filters of a few levels, 1,118 KiB on
 * x86-64 for one that nests at all limits at once (docs/ARCHITECTURE.md, "Stack"); lekhyundo_constant takes 17 KiB more than
 * (a) on the same source, and up to 66 KiB beside that for a `%` of floats that lie far apart. A thread with
 * LEKHYUNDO_MOST_STACK bytes of stack can read what strangers wrote.
 *
 * An answer is four numbers: one of enum lekhyundo_refusal, where its place starts and ends, and a count: the rows or
 * bytes for 0, those needed for 10, else 0. If fewer than four are lent, only those are written.
 */
#ifndef LEKHYUNDO_H
#define LEKHYUNDO_H

#include <stddef.h>
#include <stdint.h>

#define LEKHYUNDO_VERSION_MAJOR 0
#define LEKHYUNDO_VERSION_MINOR 2
#define LEKHYUNDO_VERSION_PATCH 0
#define LEKHYUNDO_VERSION "0.2.0"

#ifdef __cplusplus
extern "C" {
#endif

/* What is enough for any source: bytes that are read, rows, instructions of a constant, dropped ranges, bytes of stack. */
enum lekhyundo_most {
    LEKHYUNDO_MOST_BYTES = 65535,
    LEKHYUNDO_MOST_ROWS = 98304,
    LEKHYUNDO_MOST_INSTRUCTIONS = 1024,
    LEKHYUNDO_MOST_RANGES = 21845,
    LEKHYUNDO_MOST_STACK = 1572864
};

/* The numbers of an answer by their place in it. */
enum lekhyundo_answer {
    LEKHYUNDO_ANSWER_NUMBER = 0,
    LEKHYUNDO_ANSWER_START = 1,
    LEKHYUNDO_ANSWER_END = 2,
    LEKHYUNDO_ANSWER_COUNT = 3
};

/* What the first of them says (README.md has the places). */
enum lekhyundo_refusal {
    LEKHYUNDO_REFUSAL_NONE = 0, /* accepted */
    LEKHYUNDO_REFUSAL_TOO_LONG = 1, /* longer than LEKHYUNDO_MOST_BYTES */
    LEKHYUNDO_REFUSAL_HIGH_BYTE = 2, /* byte of 128 or more */
    LEKHYUNDO_REFUSAL_SHEBANG = 3, /* source begins #! */
    LEKHYUNDO_REFUSAL_NO_TOKEN = 4, /* no token starts here */
    LEKHYUNDO_REFUSAL_F_STRING = 5, /* f-string, in a token list alone */
    LEKHYUNDO_REFUSAL_UNUSABLE = 6, /* token not usable here */
    LEKHYUNDO_REFUSAL_VALUELESS = 7, /* literal, or text of an f-string, without a value */
    LEKHYUNDO_REFUSAL_NO_PATH = 8, /* left side of an assignment is no path */
    LEKHYUNDO_REFUSAL_TOO_DEEP = 9, /* nested too deep */
    LEKHYUNDO_REFUSAL_NO_ROOM = 10, /* no room; the count says how much is needed */
    LEKHYUNDO_REFUSAL_ENDS_EARLY = 11, /* source ends too early */
    LEKHYUNDO_REFUSAL_WRONG_SIZE = 12, /* size of a row wrong (lekhyundo_at) */
    LEKHYUNDO_REFUSAL_NO_LEAF = 13, /* no leaf there (lekhyundo_at) */
    LEKHYUNDO_REFUSAL_TOO_MANY_DIGITS = 14, /* float with too many digits */
    LEKHYUNDO_REFUSAL_NOT_TAKEN = 15, /* no such constant, or none that can be worked out */
    LEKHYUNDO_REFUSAL_ZERO_DIVISOR = 16, /* integer divisor zero */
    LEKHYUNDO_REFUSAL_UNFILLED = 17, /* sections don't fill the file exactly */
    LEKHYUNDO_REFUSAL_WRONG_ROW = 18, /* row is not that of the source */
    LEKHYUNDO_REFUSAL_WRONG_INDEX = 19 /* index is not that of the declaration */
};

/* The numbers of a row by their place in it, and how many they are. */
enum lekhyundo_row {
    LEKHYUNDO_ROW_KIND = 0,
    LEKHYUNDO_ROW_START = 1,
    LEKHYUNDO_ROW_END = 2,
    LEKHYUNDO_ROW_CHILDREN = 3,
    LEKHYUNDO_ROW_VALUE = 4,
    LEKHYUNDO_ROW_DETAIL = 5,
    LEKHYUNDO_ROW_SIZE = 6, /* how many rows the whole subtree has, itself included */
    LEKHYUNDO_WIDTH = 7
};

/* The kinds of rows. A hole of an f-string has its expression's own row; an empty text of it has none. */
enum lekhyundo_kind {
    LEKHYUNDO_KIND_NONE = 0, /* no row: what zeros fill */
    LEKHYUNDO_KIND_NAME = 1,
    LEKHYUNDO_KIND_PATH = 2, /* names with periods between */
    LEKHYUNDO_KIND_NEVER = 3, /* the type ! */
    LEKHYUNDO_KIND_UNIT = 4, /* the type () */
    LEKHYUNDO_KIND_OPTION = 5, /* a type and ? */
    LEKHYUNDO_KIND_PATH_TYPE = 6,
    LEKHYUNDO_KIND_RECORD_TYPE = 7,
    LEKHYUNDO_KIND_TYPED_NAME = 8, /* name : type */
    LEKHYUNDO_KIND_INTEGER = 10, /* hex too */
    LEKHYUNDO_KIND_FLOAT = 11,
    LEKHYUNDO_KIND_BOOL = 12,
    LEKHYUNDO_KIND_ASN = 13, /* AS number */
    LEKHYUNDO_KIND_IPV4 = 14,
    LEKHYUNDO_KIND_IPV6 = 15,
    LEKHYUNDO_KIND_STRING = 16,
    LEKHYUNDO_KIND_CHAR = 17,
    LEKHYUNDO_KIND_BINARY = 20, /* its detail is the operator */
    LEKHYUNDO_KIND_NOT = 21, /* ! before an operand */
    LEKHYUNDO_KIND_NEGATE = 22, /* - before an operand */
    LEKHYUNDO_KIND_CALL = 23, /* its children: what is called, then the arguments */
    LEKHYUNDO_KIND_ACCESS = 24, /* an operand, a period and a name */
    LEKHYUNDO_KIND_QUESTION = 25, /* an operand and ? */
    LEKHYUNDO_KIND_ASSIGN = 26,
    LEKHYUNDO_KIND_RETURN = 27, /* return, accept or reject */
    LEKHYUNDO_KIND_IF = 28,
    LEKHYUNDO_KIND_WHILE = 29,
    LEKHYUNDO_KIND_FOR = 30,
    LEKHYUNDO_KIND_MATCH = 31,
    LEKHYUNDO_KIND_ARM = 32, /* of a match */
    LEKHYUNDO_KIND_ANY = 33, /* _ in an arm */
    LEKHYUNDO_KIND_VARIANT = 34, /* a name in an arm */
    LEKHYUNDO_KIND_BLOCK = 35,
    LEKHYUNDO_KIND_RECORD = 36,
    LEKHYUNDO_KIND_FIELD = 37, /* of a record */
    LEKHYUNDO_KIND_LET = 38,
    LEKHYUNDO_KIND_IMPORT = 39,
    LEKHYUNDO_KIND_CONST = 40,
    LEKHYUNDO_KIND_FN = 41,
    LEKHYUNDO_KIND_TEST = 42,
    LEKHYUNDO_KIND_TREE = 43, /* the whole source */
    LEKHYUNDO_KIND_IMPORT_PATH = 44,
    LEKHYUNDO_KIND_FILTER = 45, /* filter or filtermap */
    LEKHYUNDO_KIND_F_STRING = 46, /* f"..", its parts as children; it ends before the closing quote */
    LEKHYUNDO_KIND_TEXT = 47 /* a text of an f-string: its value is how many bytes it has in UTF-8 in the end */
};

/* The types: the detail of an integer's or float's row (0: no suffix), and the declared type of a constant. */
enum lekhyundo_type {
    LEKHYUNDO_TYPE_NONE = 0,
    LEKHYUNDO_TYPE_I8 = 1,
    LEKHYUNDO_TYPE_I16 = 2,
    LEKHYUNDO_TYPE_I32 = 3,
    LEKHYUNDO_TYPE_I64 = 4,
    LEKHYUNDO_TYPE_U8 = 5,
    LEKHYUNDO_TYPE_U16 = 6,
    LEKHYUNDO_TYPE_U32 = 7,
    LEKHYUNDO_TYPE_U64 = 8,
    LEKHYUNDO_TYPE_F32 = 9, /* a suffix alone */
    LEKHYUNDO_TYPE_F64 = 10,
    LEKHYUNDO_TYPE_BOOL = 12 /* of a constant alone */
};

/* The operators: the detail of a row of kind 20. */
enum lekhyundo_operator {
    LEKHYUNDO_OPERATOR_OR = 1, /* || */
    LEKHYUNDO_OPERATOR_AND = 2, /* && */
    LEKHYUNDO_OPERATOR_EQUAL = 3, /* == */
    LEKHYUNDO_OPERATOR_NOT_EQUAL = 4, /* != */
    LEKHYUNDO_OPERATOR_LESS = 5, /* < */
    LEKHYUNDO_OPERATOR_LESS_EQUAL = 6, /* <= */
    LEKHYUNDO_OPERATOR_GREATER = 7, /* > */
    LEKHYUNDO_OPERATOR_GREATER_EQUAL = 8, /* >= */
    LEKHYUNDO_OPERATOR_ADD = 9, /* + */
    LEKHYUNDO_OPERATOR_SUBTRACT = 10, /* - */
    LEKHYUNDO_OPERATOR_MULTIPLY = 11, /* * */
    LEKHYUNDO_OPERATOR_DIVIDE = 12, /* / */
    LEKHYUNDO_OPERATOR_REMAINDER = 13 /* % */
};

/* The codes of tokens. */
enum lekhyundo_token_code {
    LEKHYUNDO_TOKEN_IPV6 = 1,
    LEKHYUNDO_TOKEN_IPV4 = 2,
    LEKHYUNDO_TOKEN_TWO_SIGNS = 3, /* two signs as one, == */
    LEKHYUNDO_TOKEN_ONE_SIGN = 4, /* one sign */
    LEKHYUNDO_TOKEN_ASN = 5, /* AS number */
    LEKHYUNDO_TOKEN_HEX = 6,
    LEKHYUNDO_TOKEN_INTEGER = 7,
    LEKHYUNDO_TOKEN_FLOAT = 8,
    LEKHYUNDO_TOKEN_STRING = 9,
    LEKHYUNDO_TOKEN_CHAR = 10,
    LEKHYUNDO_TOKEN_KEYWORD = 11, /* of the 22 */
    LEKHYUNDO_TOKEN_BOOL = 12, /* true, false */
    LEKHYUNDO_TOKEN_NAME = 13
};

/* The words of lekhyundo_step: which literal, sign or keyword a token is. */
enum lekhyundo_word {
    LEKHYUNDO_WORD_NONE = 0, /* a refusal has no word */
    LEKHYUNDO_WORD_IPV6 = 1,
    LEKHYUNDO_WORD_IPV4 = 2,
    LEKHYUNDO_WORD_ASN = 5,
    LEKHYUNDO_WORD_HEX = 6,
    LEKHYUNDO_WORD_INTEGER = 7,
    LEKHYUNDO_WORD_FLOAT = 8,
    LEKHYUNDO_WORD_STRING = 9,
    LEKHYUNDO_WORD_CHAR = 10,
    LEKHYUNDO_WORD_BOOL = 12, /* true, false */
    LEKHYUNDO_WORD_NAME = 13,
    LEKHYUNDO_WORD_UNDERSCORE = 14, /* _ alone */
    LEKHYUNDO_WORD_EQ_EQ = 20, /* == */
    LEKHYUNDO_WORD_FAT_ARROW = 21, /* => */
    LEKHYUNDO_WORD_BANG_EQ = 22, /* != */
    LEKHYUNDO_WORD_ANGLE_LEFT_EQ = 23, /* <= */
    LEKHYUNDO_WORD_ANGLE_RIGHT_EQ = 24, /* >= */
    LEKHYUNDO_WORD_AMP_AMP = 25, /* && */
    LEKHYUNDO_WORD_PIPE_PIPE = 26, /* || */
    LEKHYUNDO_WORD_ARROW = 27, /* -> */
    LEKHYUNDO_WORD_PLUS_EQ = 28, /* += */
    LEKHYUNDO_WORD_MINUS_EQ = 29, /* -= */
    LEKHYUNDO_WORD_STAR_EQ = 30, /* *= */
    LEKHYUNDO_WORD_SLASH_EQ = 31, /* /= */
    LEKHYUNDO_WORD_PERCENT_EQ = 32, /* %= */
    LEKHYUNDO_WORD_CURLY_LEFT = 40, /* { */
    LEKHYUNDO_WORD_CURLY_RIGHT = 41, /* } */
    LEKHYUNDO_WORD_ROUND_LEFT = 42, /* ( */
    LEKHYUNDO_WORD_ROUND_RIGHT = 43, /* ) */
    LEKHYUNDO_WORD_SQUARE_LEFT = 44, /* [ */
    LEKHYUNDO_WORD_SQUARE_RIGHT = 45, /* ] */
    LEKHYUNDO_WORD_COLON = 46, /* : */
    LEKHYUNDO_WORD_SEMI_COLON = 47, /* ; */
    LEKHYUNDO_WORD_COMMA = 48, /* , */
    LEKHYUNDO_WORD_PERIOD = 49, /* . */
    LEKHYUNDO_WORD_EQ = 50, /* = */
    LEKHYUNDO_WORD_QUESTION_MARK = 51, /* ? */
    LEKHYUNDO_WORD_BANG = 52, /* ! */
    LEKHYUNDO_WORD_HYPHEN = 53, /* - */
    LEKHYUNDO_WORD_PLUS = 54, /* + */
    LEKHYUNDO_WORD_STAR = 55, /* * */
    LEKHYUNDO_WORD_SLASH = 56, /* / */
    LEKHYUNDO_WORD_PERCENT = 57, /* % */
    LEKHYUNDO_WORD_ANGLE_LEFT = 58, /* < */
    LEKHYUNDO_WORD_ANGLE_RIGHT = 59, /* > */
    LEKHYUNDO_WORD_ACCEPT = 60,
    LEKHYUNDO_WORD_CONST = 61,
    LEKHYUNDO_WORD_DEP = 62,
    LEKHYUNDO_WORD_ELSE = 63,
    LEKHYUNDO_WORD_ENUM = 64,
    LEKHYUNDO_WORD_FILTER = 65,
    LEKHYUNDO_WORD_FILTERMAP = 66,
    LEKHYUNDO_WORD_FOR = 67,
    LEKHYUNDO_WORD_FN = 68,
    LEKHYUNDO_WORD_IF = 69,
    LEKHYUNDO_WORD_IMPORT = 70,
    LEKHYUNDO_WORD_IN = 71,
    LEKHYUNDO_WORD_LET = 72,
    LEKHYUNDO_WORD_MATCH = 73,
    LEKHYUNDO_WORD_PKG = 74,
    LEKHYUNDO_WORD_RECORD = 75,
    LEKHYUNDO_WORD_REJECT = 76,
    LEKHYUNDO_WORD_RETURN = 77,
    LEKHYUNDO_WORD_STD = 78,
    LEKHYUNDO_WORD_SUPER = 79,
    LEKHYUNDO_WORD_TEST = 80,
    LEKHYUNDO_WORD_WHILE = 81
};

/* (a) A source to its tree. A row is seven numbers: kind, start, end, children, value, detail, size; children come before their
 * parent. The size is how many rows the whole subtree has, itself included: those of row i are the rows i + 1 - size to i, so that
 * a walk from the last row back skips a subtree at once. Accepted: the rows stand first in the table and zeros fill the rest.
 * Refused: zeros throughout. Room is table_length / LEKHYUNDO_WIDTH; 98,304 rows serve any source. Number 5 is never given. A `test` is refused
 * with 6, at that word: tests have left the filter file. */
void lekhyundo_tree(const uint8_t *source, size_t source_length, uint64_t *table, size_t table_length,
                    uint64_t *answer, size_t answer_length);

/* (b) A source to one expression, likewise. */
void lekhyundo_expression(const uint8_t *source, size_t source_length, uint64_t *table, size_t table_length,
                          uint64_t *answer, size_t answer_length);

/* A token: its code (enum lekhyundo_token_code) and the bytes from start up to end. */
struct lekhyundo_token {
    uint64_t code;
    size_t start;
    size_t end;
};

/* (c) A source's tokens. Accepted: they stand first in the list and zero tokens fill the rest. Refused: zero tokens throughout.
 * The numbers are 0 to 5 and 10; 5 stands for an f-string (f"), which only (a) and (b) read. No source has more tokens than bytes. */
void lekhyundo_token_list(const uint8_t *source, size_t source_length, struct lekhyundo_token *list, size_t list_length,
                          uint64_t *answer, size_t answer_length);

/* The same answer with room for so many tokens, without a list. */
void lekhyundo_tokens(const uint8_t *source, size_t source_length, size_t room, uint64_t *answer, size_t answer_length);

/* The token at or behind a place, five numbers: 0, start, end, code, word; or its refusal: 4, 5 at an f-string, or 11 at the
 * end of the source, start, end, 0, 0. The next token is had from the end of this one. */
void lekhyundo_step(const uint8_t *source, size_t source_length, size_t at, uint64_t *out, size_t out_length);

/* (d) The length of the text of a name row, given its first three numbers: the text starts at source + start. 0 for a row of
 * another kind and for a span that doesn't fit the source. */
size_t lekhyundo_name(const uint8_t *source, size_t source_length, uint64_t kind, size_t start, size_t end);

/* (e) A string token, quotes included, decoded to bytes. Accepted: the bytes stand first in out and zeros fill the rest.
 * Refused: zeros throughout. A token never decodes to more bytes than it has. */
void lekhyundo_decode(const uint8_t *source, size_t source_length, uint8_t *out, size_t out_length,
                      uint64_t *answer, size_t answer_length);

/* What a literal of a token code from start to end says, four numbers: 0, and its row's kind, value and detail; or 7 and zeros
 * where it has no value, where the text is no token of that code, and where the span doesn't fit the source. */
void lekhyundo_literal(const uint8_t *source, size_t source_length, uint64_t code, size_t start, size_t end,
                       uint64_t *out, size_t out_length);

/* The number of one float literal, five numbers: 0, start, end, the width (32 with the suffix f32, else 64), and the bits
 * of the float of that width nearest to the decimal itself, ties to even. Or a refusal and two zeros: 7 where the bytes are
 * not one float with a value, alone (nothing before or behind it, at most 65,535 bytes), 14 where it has more than 19 digits
 * from the first that isn't 0 to the last written, or more than 19 after the point. The place is 0 and the length either
 * way. For a row of kind 11: its span, source + start and end - start; 7 is not given then. */
void lekhyundo_float(const uint8_t *literal, size_t length, uint64_t *answer, size_t answer_length);

/* The node under the cursor: of a finished table without its zeros (LEKHYUNDO_WIDTH numbers for each of (a)'s or (b)'s rows)
 * the last leaf, a row without children, whose span holds the byte at a position. Four numbers: 0, the leaf's span, and its
 * index from 0. Or a refusal at 0, 0: 12 where the size of a row that the search came to is wrong (0, more than the rows up
 * to it, or not 1 at a leaf), which no table of (a) or (b) has; 13 where no leaf holds the byte. Any numbers may be lent as
 * a table; what is left over behind the last whole row isn't looked at. A row that doesn't hold the byte is skipped with all
 * under it. */
void lekhyundo_at(const uint64_t *table, size_t table_length, uint64_t position, uint64_t *answer, size_t answer_length);

/* The numbers of an instruction. */
enum lekhyundo_instruction {
    LEKHYUNDO_INSTRUCTION = 5
};

/* A constant worked out: the `const` declaration with a number, from 0, in the order of the source. Its rows are written to
 * the table as by (a), and one instruction for each row of its expression to the list: kind, type, value, start, end. Room of
 * the list is list_length / LEKHYUNDO_INSTRUCTION; 1,024 instructions serve any constant. Six numbers: 0, the place 0 and
 * source_length, the instructions, the declared type (enum lekhyundo_type) and the value in 64 bits: an integer with its sign
 * drawn out, a float's bits (0x7ff8000000000000 for every NaN), 0 or 1. Accepted: zeros fill both tables behind the rows and
 * the instructions. Refused: zeros throughout both, and two zeros behind the count: (a)'s numbers for the source, 15 where
 * there is no such constant (0, 0), where its expression has more than 1,024 rows, where it has another type, or at the first
 * row with a form not taken, a wrong type or too large a literal; 14 there for a float of too many digits; 10 with the
 * instructions needed; 16 at the operator whose integer divisor is zero. */
void lekhyundo_constant(const uint8_t *source, size_t source_length, uint64_t number, uint64_t *table, size_t table_length,
                        uint64_t *list, size_t list_length, uint64_t *answer, size_t answer_length);

/* A table from another tool: a file of three sections, each after its count as a 32-bit little-endian number: the source's bytes; rows, of
 * LEKHYUNDO_WIDTH 64-bit little-endian numbers each; the rows of the declarations by index from 0, 32-bit likewise. Accepted exactly when the rows are
 * those of (a) for that source and the indexes name its declarations in order; but here, in files made earlier as in any, a test is a declaration still.
 * Five numbers: 0, 0, the file's length, how many rows, and how many of them are tests (kind 42). Or a refusal: 17 at 0, 0 where the sections don't fill
 * the file exactly; before that of (a) to the source, `test` apart, its place in the source;
 * before 18 at the number of the first row that differs, is missing or is too many, + 1; before 19 at the first such index, + 1.
 * The file's rows are compared in the lent table as the source is read: it has room for (table_length - 1) / LEKHYUNDO_WIDTH rows, and 10 says how many are
 * needed, as for (a); 98,304 rows and one number more serve any file. Accepted: the rows stand first in the table and zeros fill the rest. Refused: zeros
 * throughout. */
void lekhyundo_table_check(const uint8_t *file, size_t file_length, uint64_t *table, size_t table_length,
                           uint64_t *answer, size_t answer_length);

/* The file of a source, which the check accepts. The source is read by (a) into the lent table; its refusals come first, 10 with the rows needed among them, then 10 with
 * the bytes needed. Accepted: the count is the file's bytes, they stand first in the lent bytes, and zeros fill the rest; the table is as (a) leaves it.
 * Refused: zeros throughout, in both. */
void lekhyundo_table_write(const uint8_t *source, size_t source_length, uint64_t *table, size_t table_length,
                           uint8_t *file, size_t file_length, uint64_t *answer, size_t answer_length);

/* The numbers of a dropped range by their place in it, and how many they are. */
enum lekhyundo_range {
    LEKHYUNDO_DROPPED_START = 0,
    LEKHYUNDO_DROPPED_END = 1,
    LEKHYUNDO_DROPPED_NUMBER = 2, /* of enum lekhyundo_refusal: 4, 6 to 9 or 11 */
    LEKHYUNDO_DROPPED_REFUSAL_START = 3,
    LEKHYUNDO_DROPPED_REFUSAL_END = 4,
    LEKHYUNDO_RANGE = 5
};

/* A broken source salvaged, in the lent bytes themselves: each declaration that is refused is dropped, from its first byte (or, where none has begun, from the refused
 * token's) to just before the next line, at or after the refusal's place, that begins, at column 0, with the whole word const, fn, filter, filtermap or import, or to
 * the end. The dropped bytes are spaces then; the rows of what is left stand in the table as (a) would leave them, and the ranges, LEKHYUNDO_RANGE numbers each, first in the
 * lent ranges, zeros behind them. Five numbers: 0, 0, source_length, how many rows, how many ranges. Or a refusal and 0: 1, 2 or 3 as of (a), and the source stays as it
 * was; 10 with the rows needed, else 10 with the ranges needed, and the source has its spaces nevertheless: lend a copy of it to ask again. Refused: zeros throughout
 * both tables. Room for ranges is ranges_length / LEKHYUNDO_RANGE; LEKHYUNDO_MOST_RANGES serve any source. */
void lekhyundo_salvage(uint8_t *source, size_t source_length, uint64_t *table, size_t table_length,
                       uint64_t *ranges, size_t ranges_length, uint64_t *answer, size_t answer_length);

/* The numbers of the plan for each row, in which rows wait to be printed. */
enum lekhyundo_plan {
    LEKHYUNDO_PLAN = 4
};

/* The one way of writing a source's tree: a space between two tokens, a newline behind {, } and ;, literals and f-strings as they are written, and of parentheses, commas
 * and ; only those that the tree needs; comments go. Sources with one tree have one print, and the print of a print is itself. A test is a declaration here, as for
 * lekhyundo_table_check. Five numbers: 0, 0, source_length, the print's bytes, and how many rows are tests (kind 42). Accepted: the print stands first in the lent text and
 * zeros fill the rest; the rows stand in the table as (a) would leave them, and the plan is zeros. Or a refusal and 0, and zeros throughout all three: that of (a) to the
 * source, `test` apart, its place in the source; before 10 with the rows needed, where table or plan have no room for them (table_length / LEKHYUNDO_WIDTH, plan_length /
 * LEKHYUNDO_PLAN; LEKHYUNDO_MOST_ROWS serve any source); before 1 where the print would have more than LEKHYUNDO_MOST_BYTES; before 9 where it would pass another limit, its
 * place in the print; before 10 with the bytes needed. It takes 64 KiB of stack more than (a) on the print. */
void lekhyundo_print(const uint8_t *source, size_t source_length, uint64_t *table, size_t table_length,
                     uint64_t *plan, size_t plan_length, uint8_t *text, size_t text_length,
                     uint64_t *answer, size_t answer_length);

/* A refusal that (a) gave to a source with a name, as ./check prints it: a line with name, line, column, number and message, the line of the source, carets under the
 * place, and what could stand there if that can be told; `needed` is the answer's count. Gives back how many bytes stand in the lent text; what doesn't fit is cut off.
 * The lent room is for the source up to the place and 16 bytes more: words are tried in it, as many readings of the source up to there. Takes the stack of (a) and a list of 4,096 bytes. */
size_t lekhyundo_report(const uint8_t *name, size_t name_length, const uint8_t *source, size_t source_length, uint64_t number,
                        size_t start, size_t end, size_t needed, uint8_t *room, size_t room_length, uint8_t *text, size_t text_length);

#ifdef __cplusplus
}
#endif

#endif
