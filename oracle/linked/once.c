/* once [WORD]: reads sheets as `bench write` makes them from standard input and, with a word, hands each to the library once.
   What it executes with a word less what it executes without is what the library executes. It needs no system header, so that the kit's compiler
   is enough; it is for counting where no program can be linked that runs natively. */
#include "library.h"

static u32 sheets[1 << 20];
static u32 nodes[8192 * 8];
static u32 errors[64 * 6];
static unsigned char expected[65536];

int main(int count, char **words) {
    size_t filled = 0;
    long got;
    (void)words;
    while ((got = read(0, (char *)sheets + filled, sizeof sheets - filled)) > 0) filled += (size_t)got;
    if (count < 2) return 0;
    const u32 *at = sheets + 1;
    for (u32 i = 0; i < sheets[0]; i++) {
        lucia_reading counts;
        const u32 *text = at + 5, *tokens = text + (at[0] + 3) / 4;
        if (lucia_parse((const unsigned char *)text, at[0], tokens, at[1], 0xffffffffu, nodes, at[2], errors, at[3], expected, at[4], &counts))
            return 1;
        at = tokens + at[1];
    }
    return 0;
}
