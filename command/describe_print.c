#include "describe.h"

#include "hex.h"
#include "layout.h"

/* High zeros are left out. */
static void print_word(const char *key, const uint8_t *word, size_t count)
{
    while (count > 1 && word[count - 1] == 0)
        count--;
    printf("%s ", key);
    hex_print(word, count);
    putchar('\n');
}

void describe_print(const struct book *book)
{
    const uint8_t *bytes = book->bytes;
    size_t n = shiftsum_n(bytes), limits = layout_limits(layout_width(bytes)), l;
    printf("# n %zu, k %zu, q %u\n", n, shiftsum_k(bytes), shiftsum_q(bytes));
    printf("s %u\np %u\n", bytes[AT_S], bytes[AT_P]);
    print_word("g", bytes + AT_GENERATOR, n);
    printf("I %u\nD %u\n", bytes[limits + 1], bytes[limits + 2]);
    for (l = 0; l < layout_duals(bytes, book->len); l++)
        print_word("dual", layout_dual_word(bytes, l), n);
}
