/* load OBJECT: loads a shared object that has the archive in it, and decodes a word by it. */
#include <dlfcn.h>
#include <shiftsum.h>
#include <stdio.h>

static const uint8_t book[SHIFTSUM_BOOK_MIN] = {1, 3, 1, 2, 1, 1, 0, 1, [67] = 3, 3, 1, 4, 1, 1, 1, 0, 1};

int main(int count, char **words)
{
    static const uint8_t received[7] = {1, 1};
    uint32_t (*decode)(const uint8_t *, size_t, const uint8_t *, size_t, uint8_t *, size_t) = 0;
    uint8_t answer[7];
    uint32_t result;
    void *object = count == 2 ? dlopen(words[1], RTLD_NOW | RTLD_LOCAL) : NULL;
    if (object != NULL)
        *(void **)&decode = dlsym(object, "shiftsum_decode");
    if (decode == 0) {
        fprintf(stderr, "%s\n", count == 2 ? dlerror() : "no object");
        return 1;
    }
    result = decode(book, sizeof book, received, 7, answer, 7);
    printf("%c %u %u %d%d%d%d%d%d%d\n", SHIFTSUM_KIND(result), SHIFTSUM_ROUNDS(result), SHIFTSUM_CHANGED(result), answer[0], answer[1], answer[2],
           answer[3], answer[4], answer[5], answer[6]);
    return dlclose(object);
}
