/* The library as the small programs see it that the kit's compiler makes. It includes nothing, so that no system header is needed. */
typedef unsigned int u32;
typedef unsigned long size_t;

typedef struct {
    u32 reads, nodes, errors, expected;
} lucia_reading;

unsigned char lucia_parse(const unsigned char *text, size_t text_len, const u32 *tokens, size_t token_words, u32 allowance, u32 *nodes,
                          size_t node_words, u32 *errors, size_t error_words, unsigned char *expected, size_t expected_len,
                          lucia_reading *counts);
long read(int from, void *to, size_t most);
