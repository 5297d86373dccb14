/*
 * An entry screen: a figure is typed on each line, and the screen echoes its
 * value, or says that it is not a figure.
 *
 * A line runs to its line feed, which is not a part of the figure; a last
 * line without one is read like the rest. A line may hold any bytes.
 */
#include <inttypes.h>
#include <stdio.h>

#include "margin_figure.h"

/* One byte more than the longest figure: enough to tell that it is longer. */
enum { KEPT = 16 };

struct typed {
    uint8_t bytes[KEPT];
    size_t len;
};

static void type(struct typed *t, int byte)
{
    if (t->len < KEPT) {
        t->bytes[t->len++] = (uint8_t)byte;
    }
}

static int echo(struct typed *t)
{
    int64_t value = margin_figure(t->bytes, t->len);
    t->len = 0;
    if (value < 0) {
        return puts("not a figure");
    }
    return printf("%" PRId64 "\n", value);
}

int main(void)
{
    struct typed t = {{0}, 0};
    int byte;
    int begun = 0;
    while ((byte = getchar()) != EOF) {
        begun = byte != '\n';
        if (begun) {
            type(&t, byte);
        } else if (echo(&t) < 0) {
            break;
        }
    }
    if (begun && !ferror(stdout)) {
        echo(&t);
    }
    if (ferror(stdin) || fflush(stdout) != 0 || ferror(stdout)) {
        perror("entry_screen");
        return 1;
    }
    return 0;
}
