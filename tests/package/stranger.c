/* A program as a stranger writes it: codes a frame, spoils a symbol, decodes, reads it back, and takes two such words as a game. */
#include <shiftsum.h>
#include <stdio.h>
#include <string.h>

enum { N = 7, K = 4, WORDS = 2 };

static const uint8_t book[SHIFTSUM_BOOK_MIN] = {1, 3, 1, 2, 1, 1, 0, 1, [67] = 3, 3, 1, 4, 1, 1, 1, 0, 1};
static const uint8_t frame[K] = {1, 0, 1, 1};

static void print(const char *name, const uint8_t *symbols, size_t count)
{
    printf("%s ", name);
    for (size_t i = 0; i < count; i++)
        printf("%d", symbols[i]);
    printf("\n");
}

static int one_word(uint8_t *word)
{
    uint8_t answer[N], message[K], remainder[N - K];
    uint32_t decoded;
    if (shiftsum_code(book, sizeof book, frame, K, word, N) != 0)
        return 0;
    print("word", word, N);
    word[2] ^= 1;
    decoded = shiftsum_decode(book, sizeof book, word, N, answer, N);
    printf("%c %u %u\n", SHIFTSUM_KIND(decoded), SHIFTSUM_ROUNDS(decoded), SHIFTSUM_CHANGED(decoded));
    if (shiftsum_read(book, sizeof book, answer, N, message, K) != 0 || shiftsum_remainder(book, sizeof book, word, N, remainder, N - K) != 0)
        return 0;
    print("message", message, K);
    print("remainder", remainder, N - K);
    return memcmp(message, frame, K) == 0;
}

static int game(const uint8_t *word)
{
    uint8_t mixed[N * WORDS], messages[K * WORDS];
    uint32_t taken;
    for (size_t i = 0; i < N * WORDS; i++)
        mixed[i] = word[i / WORDS];
    taken = shiftsum_game(book, sizeof book, WORDS, mixed, sizeof mixed, messages, sizeof messages);
    printf("%c %u\n", SHIFTSUM_KIND(taken), SHIFTSUM_HELD_WORDS(taken));
    print("messages", messages, sizeof messages);
    return SHIFTSUM_REFUSAL(taken) == 0;
}

int main(void)
{
    uint8_t word[N];
    if (shiftsum_version() != SHIFTSUM_VERSION)
        return 2;
    printf("dual words %u, n %zu, k %zu\n", SHIFTSUM_DUAL_WORDS(shiftsum_check(book, sizeof book)), shiftsum_n(book), shiftsum_k(book));
    return one_word(word) && game(word) ? 0 : 1;
}
