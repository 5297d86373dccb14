/*
 * A plain C program that does what proofread does, for the comparison of
 * speed: it splits and checks the same lines and prints the same answers,
 * with the C library's buffered input and output.
 */
#include <stdio.h>
#include <stdlib.h>
#include <string.h>
#include <sys/types.h>

enum kind { NAME, FIGURE, LETTER };

struct field {
    enum kind kind;
    const char *key;
    const char *letters;
};

struct word {
    const char *text;
    struct field fields[13];
};

#define N(key) {NAME, key "=", 0}
#define F(key) {FIGURE, key "=", 0}
#define L(key, letters) {LETTER, key "=", letters}

static const struct word words[] = {
    {"product", {N("name"), L("kind", "FO"), F("tick"), F("fee"), F("tax"), F("limit"), F("share"), F("ia"), F("ib"), F("ma"), F("mb"), F("spot")}},
    {"contract", {N("name"), N("product"), L("right", "NCP"), F("strike"), F("floor"), F("ceiling"), F("mark")}},
    {"announce", {N("name"), F("fee"), F("tax"), F("limit"), F("share"), F("ia"), F("ib"), F("ma"), F("mb")}},
    {"band", {N("contract"), F("floor"), F("ceiling")}},
    {"spot", {N("product"), F("price")}},
    {"mark", {N("contract"), F("price")}},
    {"deposit", {F("amount")}},
    {"withdraw", {F("amount")}},
    {"cancel", {F("order")}},
    {"order", {N("contract"), L("side", "BS"), L("effect", "OC"), F("lots"), F("price")}},
    {"fill", {F("order"), F("lots"), F("price")}},
    {"open", {{0}}},
    {"close", {{0}}},
    {"deadline", {{0}}},
    {"report", {{0}}},
};

static size_t value_end(const char *line, size_t len, size_t at)
{
    const char *blank = memchr(line + at, ' ', len - at);
    return blank ? (size_t)(blank - line) : len;
}

static int is_figure(const char *v, size_t n)
{
    if (n == 0 || n > 15 || (n > 1 && v[0] == '0')) {
        return 0;
    }
    for (size_t i = 0; i < n; i++) {
        if (v[i] < '0' || v[i] > '9') {
            return 0;
        }
    }
    return 1;
}

static int is_name(const char *v, size_t n)
{
    if (n == 0 || n > 8) {
        return 0;
    }
    for (size_t i = 0; i < n; i++) {
        if (!((v[i] >= 'A' && v[i] <= 'Z') || (v[i] >= '0' && v[i] <= '9'))) {
            return 0;
        }
    }
    return 1;
}

/* The decline's number, and its column in at; 0 if the line is taken. */
static int judge(const char *line, size_t len, size_t *at)
{
    if (len > 200) {
        *at = 201;
        return 2;
    }
    size_t end = value_end(line, len, 0);
    const struct word *w = 0;
    for (size_t i = 0; i < sizeof words / sizeof *words; i++) {
        if (strlen(words[i].text) == end && memcmp(words[i].text, line, end) == 0) {
            w = &words[i];
            break;
        }
    }
    if (!w) {
        *at = 1;
        return 2;
    }
    for (const struct field *f = w->fields; f->key; f++) {
        size_t n = strlen(f->key);
        if (end >= len || line[end] != ' ') {
            *at = end + 1;
            return 2;
        }
        if (len - end - 1 < n || memcmp(line + end + 1, f->key, n) != 0) {
            *at = end + 2;
            return 2;
        }
        size_t start = end + 1 + n;
        end = value_end(line, len, start);
        const char *v = line + start;
        n = end - start;
        *at = start + 1;
        if (f->kind == FIGURE && !is_figure(v, n)) {
            return 1;
        }
        if (f->kind == NAME && !is_name(v, n)) {
            return 2;
        }
        if (f->kind == LETTER && (n != 1 || v[0] == 0 || !strchr(f->letters, v[0]))) {
            return 2;
        }
    }
    *at = end + 1;
    return end < len ? 2 : 0;
}

int main(void)
{
    char *line = 0;
    size_t size = 0;
    ssize_t got;
    unsigned long number = 0;
    while ((got = getline(&line, &size, stdin)) > 0) {
        size_t len = (size_t)got;
        size_t at;
        if (line[len - 1] == '\n') {
            len--;
        }
        int declined = judge(line, len, &at);
        number++;
        if (declined) {
            printf("line=%lu refused=%d layer=%d at=%zu short=0\n", number, declined, declined, at);
        } else {
            printf("line=%lu ok=0\n", number);
        }
    }
    free(line);
    return ferror(stdin) || fflush(stdout) != 0;
}
