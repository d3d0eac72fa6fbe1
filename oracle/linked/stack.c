/* stack: reads sheets as `stack write` makes them from standard input and hands each to the library on memory that is painted before; of each it prints the
   answer and how many bytes below the caller's frame were used. For x86-64; like once.c it needs no system header, so that the kit's compiler is enough. */
#include "library.h"

long write(int to, const void *from, size_t count);

#define WORDS ((4 << 20) / 8)
#define PAINT 0x5aa5c33c9669f00ful

static u32 sheets[1 << 25];
static u32 nodes[8192 * 8];
static u32 errors[64 * 6];
static unsigned char expected[65536];
static size_t stack[WORDS] __attribute__((aligned(64)));
static const u32 *sheet;
static size_t frame;
static unsigned char number;

/* Runs on the painted stack. */
__attribute__((noinline, used)) static void call(void) {
    const u32 *text = sheet + 2, *tokens = text + (sheet[0] + 3) / 4;
    lucia_reading counts;
    frame = (size_t)__builtin_frame_address(0);
    number = lucia_parse((const unsigned char *)text, sheet[0], tokens, sheet[1], 300000, nodes, 8192 * 8, errors, 64 * 6, expected, 65536, &counts);
}

static void on_painted(void) {
    void *top = stack + WORDS;
    __asm__ volatile("movq %%rsp, %%rbx\n\tmovq %0, %%rsp\n\tcall *%1\n\tmovq %%rbx, %%rsp"
                     :
                     : "r"(top), "r"(call)
                     : "rbx", "rax", "rcx", "rdx", "rsi", "rdi", "r8", "r9", "r10", "r11", "memory", "cc");
}

static char *decimal(char *to, size_t n) {
    char digits[20];
    int k = 0;
    do digits[k++] = (char)('0' + n % 10);
    while (n /= 10);
    while (k) *to++ = digits[--k];
    return to;
}

int main(void) {
    size_t filled = 0;
    long got;
    while ((got = read(0, (char *)sheets + filled, sizeof sheets - filled)) > 0) filled += (size_t)got;
    sheet = sheets + 1;
    for (u32 i = 0; i < sheets[0]; i++) {
        char line[48], *end;
        size_t lowest = 0;
        for (size_t k = 0; k < WORDS; k++) stack[k] = PAINT;
        on_painted();
        while (stack[lowest] == PAINT) lowest++;
        end = decimal(line, number);
        *end++ = ' ';
        end = decimal(end, frame - (size_t)(stack + lowest));
        *end++ = '\n';
        write(1, line, (size_t)(end - line));
        sheet += 2 + (sheet[0] + 3) / 4 + sheet[1];
    }
    return 0;
}
