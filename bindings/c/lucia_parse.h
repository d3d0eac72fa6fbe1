/*
 * The scheme reader for C and C++: one call, lucia_parse, of the proved library libparser.a (x86-64 Linux).
 *
 * Make the library with `tools/library`; it then is target/staticlib/libparser.a. bindings/run.sh shows how a program is linked with it.
 * docs/LAYOUT.md says what each word of a record means; the numbers below are its numbers, and bindings/run.sh holds them to the library's sources.
 */
#ifndef LUCIA_PARSE_H
#define LUCIA_PARSE_H

#include <stddef.h>
#include <stdint.h>

#ifdef __cplusplus
extern "C" {
#endif

/* The 32-bit words of a token (kind, start, end) and of each record. */
enum {
    LUCIA_TOKEN_WORDS = 3,
    LUCIA_NODE_WORDS = 8,
    LUCIA_ERROR_WORDS = 6
};

/* The limits. Records past the most are never written, so a larger buffer is of no use; a smaller one is refused when it is full. */
enum {
    LUCIA_MAX_TEXT = 65535,    /* bytes of text */
    LUCIA_MAX_TOKENS = 4096,   /* tokens, trivia among them */
    LUCIA_MAX_NODES = 8192,    /* node records */
    LUCIA_MAX_ERRORS = 64,     /* error records */
    LUCIA_MAX_EXPECTED = 65536 /* expected kinds: as many as 64 errors can list */
};

/* The answer: read, or why not. */
enum {
    LUCIA_READ = 0, /* read; the sheet's errors, if any, are listed */

    /* Refused at the door: the three buffers are as they were. */
    LUCIA_REFUSED_TEXT_TOO_LONG = 1,
    LUCIA_REFUSED_TOO_MANY_TOKENS = 2,
    LUCIA_REFUSED_NOT_UTF8 = 3,
    LUCIA_REFUSED_BAD_KIND = 4,   /* a token kind above 78, or Eof, which the list must not hold */
    LUCIA_REFUSED_BAD_RANGE = 5,  /* a token that is empty, ends before its start, leaves the text, starts before the previous end or cuts a character */
    LUCIA_REFUSED_BAD_QUOTES = 6, /* a Str, RawStr or ByteStr without its two equal quotes */

    /* Refused on the way: the three buffers are all zero. */
    LUCIA_REFUSED_NODES_FULL = 7,
    LUCIA_REFUSED_ERRORS_FULL = 8, /* no room for an error record or for its expected kinds */
    LUCIA_REFUSED_TOO_DEEP = 9,    /* nested deeper than 64 */
    LUCIA_REFUSED_ALLOWANCE = 10,  /* more readings than allowed */
    LUCIA_REFUSED_LIVE_FULL = 11   /* more than 1,024 kinds expected at one place */
};

/* What a reading reports. All four are 0 after a refusal. */
typedef struct lucia_reading {
    uint32_t reads;    /* readings: tokens taken, those of undone attempts too */
    uint32_t nodes;    /* node records; the root is the last one */
    uint32_t errors;   /* error records */
    uint32_t expected; /* bytes of the expected buffer in use */
} lucia_reading;

/*
 * Reads a sheet.
 *
 *   text, text_len          the sheet's bytes
 *   tokens, token_words     its tokens in order, LUCIA_TOKEN_WORDS words each: kind (LUCIA_TOKEN_..), then start and end, in bytes of the text.
 *                           Trivia belong in the list, Eof does not. token_words counts words, not tokens; words left over are not looked at
 *   allowance               the most readings that may be spent, any number
 *   nodes, node_words       room for node records, LUCIA_NODE_WORDS words each; node_words counts words
 *   errors, error_words     room for error records, LUCIA_ERROR_WORDS words each; error_words counts words
 *   expected, expected_len  room for the expected kinds of all errors, a byte each
 *   counts                  where the counts are written, whatever the answer
 *
 * Answers LUCIA_READ or one of LUCIA_REFUSED_.. and no other number. After LUCIA_READ the records are in the buffers and everything past the
 * counts is zero. Refusals 1 to 6 leave the three buffers untouched, 7 to 11 leave them all zero. Text and tokens are never written. What the
 * buffers held before does not matter.
 *
 * The caller must see to it that
 *   - no pointer is null, not even with a length of 0: any aligned address will do then;
 *   - each pointer leads to as many elements as its length says, words and counts aligned as a uint32_t;
 *   - nodes, errors, expected and counts overlap neither one another nor text or tokens;
 *   - nobody writes text or tokens, or touches the rest, while the call runs.
 * Nothing else is required: any text, any tokens and any lengths get an answer, and every call ends.
 *
 * The call keeps nothing between calls and asks for no memory but stack, so that threads may call it at once, each on buffers of its own.
 * Stack: 85,304 bytes below the caller's frame at the deepest sheet that was found (docs/ORACLE.md); have 300,000 free.
 */
uint8_t lucia_parse(const uint8_t *text, size_t text_len,
                    const uint32_t *tokens, size_t token_words,
                    uint32_t allowance,
                    uint32_t *nodes, size_t node_words,
                    uint32_t *errors, size_t error_words,
                    uint8_t *expected, size_t expected_len,
                    lucia_reading *counts);

/* The places of a node record's words. FIRST and NEXT are links: 0 for none, otherwise a record's index and 1. */
enum {
    LUCIA_AT_KIND = 0,  /* LUCIA_NODE_.. */
    LUCIA_AT_START = 1, /* the range, in bytes of the text */
    LUCIA_AT_END = 2,
    LUCIA_AT_FIRST = 3, /* link to the first child */
    LUCIA_AT_NEXT = 4,  /* link to the next child of the same parent */
    LUCIA_AT_ONE = 5,   /* two words of the kind's own */
    LUCIA_AT_TWO = 6,
    LUCIA_AT_FLAGS = 7 /* two list lengths and two flags, taken apart by the macros below */
};

#define LUCIA_FLAGS_N(flags) ((uint32_t)(flags) & UINT32_C(0x7fff))
#define LUCIA_FLAGS_M(flags) (((uint32_t)(flags) >> 15) & UINT32_C(0x7fff))
#define LUCIA_FLAGS_ONE(flags) (((uint32_t)(flags) >> 30) & UINT32_C(1))
#define LUCIA_FLAGS_TWO(flags) ((uint32_t)(flags) >> 31)

/* The places of an error record's words. */
enum {
    LUCIA_AT_CLASS = 0,       /* LUCIA_CLASS_.. */
    LUCIA_AT_FOUND = 1,       /* the token kind found (70, Eof, at the end), or the integer's fault, LUCIA_INT_.. */
    LUCIA_AT_ERROR_START = 2, /* the range, in bytes of the text */
    LUCIA_AT_ERROR_END = 3,
    LUCIA_AT_KINDS_FROM = 4, /* where its expected kinds start in the expected buffer */
    LUCIA_AT_KINDS_COUNT = 5 /* how many there are, repeats kept */
};

enum {
    LUCIA_CLASS_UNEXPECTED = 0,
    LUCIA_CLASS_INT = 1
};

enum {
    LUCIA_INT_EMPTY = 0,
    LUCIA_INT_INVALID_DIGIT = 1,
    LUCIA_INT_TOO_LARGE = 2,
    LUCIA_INT_TOO_SMALL = 3
};

/* The kinds of node records, each with its children in order. Lists take any number; docs/LAYOUT.md says what ONE, TWO and FLAGS hold. */
enum {
    LUCIA_NODE_NULL = 1,
    LUCIA_NODE_BOOL = 2,
    LUCIA_NODE_INT = 3,
    LUCIA_NODE_FLOAT = 4,
    LUCIA_NODE_STR = 5,
    LUCIA_NODE_BYTES = 6,
    LUCIA_NODE_IDENT = 7,
    LUCIA_NODE_PAREN = 8, /* expr */
    LUCIA_NODE_EXPR_BLOCK = 9, /* block */
    LUCIA_NODE_FN = 10, /* name if any, function */
    LUCIA_NODE_EXPR_EFFECT = 11, /* name, effect */
    LUCIA_NODE_TABLE = 12, /* properties */
    LUCIA_NODE_LIST = 13, /* items */
    LUCIA_NODE_UNARY = 14, /* argument */
    LUCIA_NODE_BINARY = 15, /* left, right */
    LUCIA_NODE_TYPE_CHECK = 16, /* left */
    LUCIA_NODE_MEMBER = 17, /* table, property if any */
    LUCIA_NODE_CALL = 18, /* callee, arguments, trailing lambda if any, handlers */
    LUCIA_NODE_IF = 19, /* test, consequent, alternate if any */
    LUCIA_NODE_MATCH = 20, /* expr, cases */
    LUCIA_NODE_LOOP = 21, /* body */
    LUCIA_NODE_WHILE = 22, /* test, body */
    LUCIA_NODE_FOR = 23, /* names, source, body */
    LUCIA_NODE_BREAK = 24,
    LUCIA_NODE_CONTINUE = 25,
    LUCIA_NODE_RETURN = 26, /* argument */
    LUCIA_NODE_IMPORT = 27, /* the path's names, then the alias or the items */
    LUCIA_NODE_GLO_ASSIGN = 28, /* left, right */
    LUCIA_NODE_ASSIGN = 29, /* left, right */
    LUCIA_NODE_ASSIGN_OP = 30, /* left, right */
    LUCIA_NODE_ASSIGN_UNPACK = 31, /* lefts, right */
    LUCIA_NODE_ASSIGN_MULTI = 32, /* lefts, rights */
    LUCIA_NODE_PROGRAM = 33, /* statements */
    LUCIA_NODE_BLOCK = 34, /* statements */
    LUCIA_NODE_FUNCTION = 35, /* parameters, variadic if any, returned type if any, body */
    LUCIA_NODE_CLOSURE = 36, /* parameters, variadic if any, returned type if any, body */
    LUCIA_NODE_DO = 37, /* body */
    LUCIA_NODE_EFFECT = 38, /* parameters, variadic if any, returned type if any */
    LUCIA_NODE_EFFECT_HANDLER = 39, /* the effect's name, parameters, variadic if any, body */
    LUCIA_NODE_TYPED_IDENT = 40, /* name, type */
    LUCIA_NODE_TABLE_PROPERTY = 41, /* key, value */
    LUCIA_NODE_MATCH_CASE = 42, /* patterns, body */
    LUCIA_NODE_IMPORT_ITEM = 43, /* name, alias if any */
    LUCIA_NODE_PATTERN_TABLE = 44, /* pairs */
    LUCIA_NODE_PATTERN_LIST = 45, /* items */
    LUCIA_NODE_TABLE_PATTERN_PAIR = 46, /* key, value */
    LUCIA_NODE_TY_PAREN = 47, /* type */
    LUCIA_NODE_TY_TABLE = 48, /* pairs, others if any */
    LUCIA_NODE_TY_FUNCTION = 49, /* parameters, variadic if any, returned type if any */
    LUCIA_NODE_UNION = 50, /* types */
    LUCIA_NODE_TABLE_TY_PAIR = 51, /* key, value */
    LUCIA_NODE_TABLE_TY_OTHER = 52 /* key, value */
};

/* The checked type: ONE of a LUCIA_NODE_TYPE_CHECK. */
enum {
    LUCIA_TYPE_NULL = 0,
    LUCIA_TYPE_BOOL = 1,
    LUCIA_TYPE_INT = 2,
    LUCIA_TYPE_FLOAT = 3,
    LUCIA_TYPE_STR = 4,
    LUCIA_TYPE_BYTES = 5,
    LUCIA_TYPE_TABLE = 6,
    LUCIA_TYPE_FUNCTION = 7,
    LUCIA_TYPE_EFFECT = 8,
    LUCIA_TYPE_USER_DATA = 9
};

/* How a member is named: n of the FLAGS of a LUCIA_NODE_MEMBER. */
enum {
    LUCIA_MEMBER_BRACKET = 0,
    LUCIA_MEMBER_DOT = 1,
    LUCIA_MEMBER_DOUBLE_COLON = 2,
    LUCIA_MEMBER_BRACKET_META = 3,
    LUCIA_MEMBER_DOT_META = 4,
    LUCIA_MEMBER_DOUBLE_COLON_META = 5
};

/* The token kinds. 0 to 3 are trivia; 71 to 78 are the lexer's faults, which no rule takes. */
enum {
    LUCIA_TOKEN_LINE_COMMENT = 0,
    LUCIA_TOKEN_BLOCK_COMMENT = 1,
    LUCIA_TOKEN_WHITESPACE = 2,
    LUCIA_TOKEN_ESCAPED_NEWLINE = 3,
    LUCIA_TOKEN_IDENT = 4,
    LUCIA_TOKEN_INT = 5,
    LUCIA_TOKEN_FLOAT = 6,
    LUCIA_TOKEN_STR = 7,
    LUCIA_TOKEN_RAW_STR = 8,
    LUCIA_TOKEN_BYTE_STR = 9,
    LUCIA_TOKEN_IF = 10,
    LUCIA_TOKEN_ELSE = 11,
    LUCIA_TOKEN_MATCH = 12,
    LUCIA_TOKEN_LOOP = 13,
    LUCIA_TOKEN_WHILE = 14,
    LUCIA_TOKEN_FOR = 15,
    LUCIA_TOKEN_IN = 16,
    LUCIA_TOKEN_BREAK = 17,
    LUCIA_TOKEN_CONTINUE = 18,
    LUCIA_TOKEN_RETURN = 19,
    LUCIA_TOKEN_GLO = 20,
    LUCIA_TOKEN_IMPORT = 21,
    LUCIA_TOKEN_AS = 22,
    LUCIA_TOKEN_IS = 23,
    LUCIA_TOKEN_NOT = 24,
    LUCIA_TOKEN_AND = 25,
    LUCIA_TOKEN_OR = 26,
    LUCIA_TOKEN_TRY = 27,
    LUCIA_TOKEN_WITH = 28,
    LUCIA_TOKEN_FN = 29,
    LUCIA_TOKEN_DO = 30,
    LUCIA_TOKEN_EFFECT = 31,
    LUCIA_TOKEN_NULL = 32,
    LUCIA_TOKEN_TRUE = 33,
    LUCIA_TOKEN_FALSE = 34,
    LUCIA_TOKEN_ELLIPSIS = 35,
    LUCIA_TOKEN_DOUBLE_COLON = 36,
    LUCIA_TOKEN_ARROW = 37,
    LUCIA_TOKEN_FAT_ARROW = 38,
    LUCIA_TOKEN_EQ = 39,
    LUCIA_TOKEN_NOT_EQ = 40,
    LUCIA_TOKEN_LT_EQ = 41,
    LUCIA_TOKEN_GT_EQ = 42,
    LUCIA_TOKEN_ADD_ASSIGN = 43,
    LUCIA_TOKEN_SUB_ASSIGN = 44,
    LUCIA_TOKEN_MUL_ASSIGN = 45,
    LUCIA_TOKEN_DIV_ASSIGN = 46,
    LUCIA_TOKEN_REM_ASSIGN = 47,
    LUCIA_TOKEN_COMMA = 48,
    LUCIA_TOKEN_DOT = 49,
    LUCIA_TOKEN_OPEN_PAREN = 50,
    LUCIA_TOKEN_CLOSE_PAREN = 51,
    LUCIA_TOKEN_OPEN_BRACE = 52,
    LUCIA_TOKEN_CLOSE_BRACE = 53,
    LUCIA_TOKEN_OPEN_BRACKET = 54,
    LUCIA_TOKEN_CLOSE_BRACKET = 55,
    LUCIA_TOKEN_POUND = 56,
    LUCIA_TOKEN_QUESTION = 57,
    LUCIA_TOKEN_EXCLAMATION = 58,
    LUCIA_TOKEN_COLON = 59,
    LUCIA_TOKEN_ASSIGN = 60,
    LUCIA_TOKEN_LT = 61,
    LUCIA_TOKEN_GT = 62,
    LUCIA_TOKEN_V_BAR = 63,
    LUCIA_TOKEN_ADD = 64,
    LUCIA_TOKEN_SUB = 65,
    LUCIA_TOKEN_MUL = 66,
    LUCIA_TOKEN_DIV = 67,
    LUCIA_TOKEN_REM = 68,
    LUCIA_TOKEN_EOL = 69,
    LUCIA_TOKEN_EOF = 70,
    LUCIA_TOKEN_UNKNOWN = 71,
    LUCIA_TOKEN_UNTERMINATED_BLOCK_COMMENT = 72,
    LUCIA_TOKEN_EMPTY_INT = 73,
    LUCIA_TOKEN_EMPTY_EXPONENT_FLOAT = 74,
    LUCIA_TOKEN_NON_DECIMAL_FLOAT = 75,
    LUCIA_TOKEN_UNTERMINATED_STR = 76,
    LUCIA_TOKEN_UNTERMINATED_RAW_STR = 77,
    LUCIA_TOKEN_UNTERMINATED_BYTE_STR = 78
};

#ifdef __cplusplus
}
#endif

#endif
