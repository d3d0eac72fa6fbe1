/* Reads the sheet `a is int * b` and holds what comes back to the document's figures. Exit status 1 where something differs. */
#include <stdio.h>
#include <string.h>

#include "lucia_parse.h"

enum { NODE_ROOM = 16, ERROR_ROOM = 4, EXPECTED_ROOM = 256, ALLOWANCE = 1000 };

static const char SHEET[] = "a is int * b";

static const uint32_t TOKENS[] = {
    LUCIA_TOKEN_IDENT,      0,  1,  /* a */
    LUCIA_TOKEN_WHITESPACE, 1,  2,
    LUCIA_TOKEN_IS,         2,  4,
    LUCIA_TOKEN_WHITESPACE, 4,  5,
    LUCIA_TOKEN_IDENT,      5,  8,  /* int: a type word is an Ident to the lexer */
    LUCIA_TOKEN_WHITESPACE, 8,  9,
    LUCIA_TOKEN_MUL,        9,  10,
    LUCIA_TOKEN_WHITESPACE, 10, 11,
    LUCIA_TOKEN_IDENT,      11, 12, /* b */
};

/* The document's listing as records, in the order in which they are built: children first, the Program last. `is` binds its word before `*`. */
enum { NODES = 5, READS = 5 };

static const uint32_t TREE[NODES * LUCIA_NODE_WORDS] = {
    /* kind                start end first next one               two flags */
    LUCIA_NODE_IDENT,      0,    1,  0,    0,   0,                0,  0,
    LUCIA_NODE_TYPE_CHECK, 0,    8,  1,    3,   LUCIA_TYPE_INT,   5,  0,
    LUCIA_NODE_IDENT,      11,   12, 0,    0,   0,                0,  0,
    LUCIA_NODE_BINARY,     0,    12, 2,    0,   LUCIA_TOKEN_MUL,  0,  0,
    LUCIA_NODE_PROGRAM,    0,    12, 4,    0,   0,                0,  1,
};

static int wrong;

static void expect(int held, const char *what)
{
    if (!held) {
        printf("WRONG: %s\n", what);
        wrong = 1;
    }
}

static int all_zero(const void *from, size_t bytes)
{
    const unsigned char *p = (const unsigned char *)from;
    for (size_t i = 0; i < bytes; i++)
        if (p[i] != 0)
            return 0;
    return 1;
}

int main(void)
{
    uint32_t nodes[NODE_ROOM * LUCIA_NODE_WORDS];
    uint32_t errors[ERROR_ROOM * LUCIA_ERROR_WORDS];
    uint8_t expected[EXPECTED_ROOM];
    lucia_reading counts;

    /* Something other than zero, to see that what is past the counts is cleared. */
    memset(nodes, 0xa5, sizeof nodes);
    memset(errors, 0xa5, sizeof errors);
    memset(expected, 0xa5, sizeof expected);
    memset(&counts, 0xa5, sizeof counts);

    uint8_t answer = lucia_parse((const uint8_t *)SHEET, sizeof SHEET - 1, /* without C's closing zero */
                                 TOKENS, sizeof TOKENS / sizeof TOKENS[0], ALLOWANCE,
                                 nodes, sizeof nodes / sizeof nodes[0],
                                 errors, sizeof errors / sizeof errors[0],
                                 expected, sizeof expected, &counts);

    printf("answer %u reads %u nodes %u errors %u expected %u\n", (unsigned)answer, (unsigned)counts.reads,
           (unsigned)counts.nodes, (unsigned)counts.errors, (unsigned)counts.expected);
    expect(answer == LUCIA_READ, "the answer");
    expect(counts.reads == READS, "readings");
    expect(counts.nodes == NODES, "node records");
    expect(counts.errors == 0, "error records");
    expect(counts.expected == 0, "expected kinds");
    if (wrong)
        return 1;

    for (uint32_t i = 0; i < counts.nodes; i++) {
        const uint32_t *record = nodes + LUCIA_NODE_WORDS * i;
        printf("record %u: kind %u range %u %u first %u next %u one %u two %u flags %u\n", (unsigned)i,
               (unsigned)record[LUCIA_AT_KIND], (unsigned)record[LUCIA_AT_START], (unsigned)record[LUCIA_AT_END],
               (unsigned)record[LUCIA_AT_FIRST], (unsigned)record[LUCIA_AT_NEXT], (unsigned)record[LUCIA_AT_ONE],
               (unsigned)record[LUCIA_AT_TWO], (unsigned)record[LUCIA_AT_FLAGS]);
    }
    expect(memcmp(nodes, TREE, sizeof TREE) == 0, "the tree");
    expect(all_zero((const unsigned char *)nodes + sizeof TREE, sizeof nodes - sizeof TREE), "zeros past the node records");
    expect(all_zero(errors, sizeof errors), "zeros for errors");
    expect(all_zero(expected, sizeof expected), "zeros for expected kinds");
    if (!wrong)
        printf("as the document says\n");
    return wrong;
}
