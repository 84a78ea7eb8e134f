#include "describe.h"

#include "description.h"
#include "hex.h"
#include "lines.h"
#include "say.h"

#include <string.h>

static const char *const number_keys[NUMBERS] = {"s", "p", "I", "D"};

/* A line, cut in two. */
struct entry {
    const struct line *line;
    const char *key, *value;
    size_t key_len, value_len;
};

static struct entry cut(const struct line *line)
{
    struct entry entry = {line, line->text, line->text, 0, 0};
    const char *end = line->text + line->text_len;
    while (entry.value < end && *entry.value != ' ' && *entry.value != '\t')
        entry.value++;
    entry.key_len = (size_t)(entry.value - entry.key);
    while (entry.value < end && (*entry.value == ' ' || *entry.value == '\t'))
        entry.value++;
    entry.value_len = (size_t)(end - entry.value);
    return entry;
}

static int is_key(const struct entry *entry, const char *key)
{
    return entry->key_len == strlen(key) && memcmp(entry->key, key, entry->key_len) == 0;
}

static int wrong(const struct description *text, const struct entry *entry, const char *fault)
{
    say("%s: line %lu: %s", text->name, entry->line->number, fault);
    return WRONG;
}

static int again(const struct description *text, const struct entry *entry, unsigned long before)
{
    say("%s: line %lu: %.*s stands at line %lu already", text->name, entry->line->number, (int)entry->key_len, entry->key,
        before);
    return WRONG;
}

/* A number is a byte of the codebook. */
static int take_number(const struct description *text, const struct entry *entry, struct number *number)
{
    if (number->line != 0)
        return again(text, entry, number->line);
    if (!decimal_read(entry->value, entry->value_len, 255, &number->value))
        return wrong(text, entry, "its value is no decimal number from 0 to 255");
    number->line = entry->line->number;
    return DONE;
}

static int take_word(const struct description *text, const struct entry *entry, struct word *word)
{
    static uint8_t symbols[LINE_LIMIT / 2];
    char fault[80];
    size_t good = hex_read(entry->value, entry->value_len, symbols);
    if (word->line != 0)
        return again(text, entry, word->line);
    if (good != entry->value_len) {
        hex_fault(entry->value, entry->value_len, good, line_character(entry->line, entry->value + good), fault, sizeof fault);
        return wrong(text, entry, fault);
    }
    word->count = entry->value_len / 2;
    if (word->count > sizeof word->symbols)
        return wrong(text, entry, "it has more than 255 symbols");
    memcpy(word->symbols, symbols, word->count);
    word->line = entry->line->number;
    return DONE;
}

static int take_entry(struct description *text, const struct entry *entry)
{
    int i;
    if (entry->value_len == 0)
        return wrong(text, entry, "a line is a key and a value");
    for (i = 0; i < NUMBERS; i++)
        if (is_key(entry, number_keys[i]))
            return take_number(text, entry, &text->numbers[i]);
    if (is_key(entry, "g"))
        return take_word(text, entry, &text->generator);
    if (!is_key(entry, "dual"))
        return wrong(text, entry, "its key is none of s, p, g, I, D and dual");
    if (text->count == DUAL_WORDS_MAX)
        return wrong(text, entry, "one dual word too many; a codebook has 1 to 32");
    return take_word(text, entry, &text->duals[text->count++]);
}

static int lacks(const struct description *text, const char *key)
{
    say("%s: it has no line of %s", text->name, key);
    return WRONG;
}

static int all_given(const struct description *text)
{
    int i;
    for (i = 0; i < NUMBERS; i++)
        if (text->numbers[i].line == 0)
            return lacks(text, number_keys[i]);
    if (text->generator.line == 0)
        return lacks(text, "g");
    return text->count == 0 ? lacks(text, "dual") : DONE;
}

int describe_read(FILE *from, const char *name, struct book *book)
{
    static struct line line;
    static struct description text;
    enum line_found found;
    text.name = name;
    while ((found = line_next(from, &line)) == LINE_READ) {
        struct entry entry = cut(&line);
        if (take_entry(&text, &entry) != DONE)
            return WRONG;
    }
    if (line_trouble(found, name, &line) != DONE || all_given(&text) != DONE)
        return WRONG;
    return description_book(&text, book);
}
