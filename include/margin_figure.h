/*
 * margin_figure: reads a figure, whole or not at all.
 *
 * A figure is 1 to 15 decimal digits with no leading zero, except in 0
 * itself, and nothing before, between or after them: no sign, no blank, no
 * separator, no line end. So every figure is a whole number from 0 to
 * 999999999999999, and every such number has exactly one writing.
 *
 * Link with libfigure.a.
 */
#ifndef MARGIN_FIGURE_H
#define MARGIN_FIGURE_H

#include <stddef.h>
#include <stdint.h>

#ifdef __cplusplus
extern "C" {
#endif

/*
 * Returns the value of the figure that the len bytes at bytes write, from 0
 * to 999999999999999, or -1 if they are not a figure. There is no third
 * answer: nothing is taken from the front of a longer text.
 *
 * The bytes stay the caller's. They are only read, only during the call, and
 * none past bytes[len - 1]; nothing of them is kept. They need not end in a
 * NUL, and a NUL among them is a byte like any other that is not a digit.
 *
 * An empty slice has len 0. It is not a figure, so the answer is -1, and no
 * byte is read; bytes must still not be NULL, so pass any valid address.
 *
 * The function has no state: it may be called from any thread at any time.
 */
int64_t margin_figure(const uint8_t *bytes, size_t len);

#ifdef __cplusplus
}
#endif

#endif
