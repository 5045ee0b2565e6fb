/* Answers calls of the library, one after another, so that a program in another language can make them.
 *   a request on standard input:   operation (0 encode, 1 decode, 2 take, 3 browse, 4 closing_tag), context: a byte each;
 *                                  the text's length, four bytes, the lowest first; the text
 *   its answer on standard output: the status, a byte; the result's length, four bytes, the lowest first; the result
 * The result of closing_tag is empty, or the place that it found, four bytes, the lowest first. After a refusal the result is empty. It ends with status 0 at the end of input, with 2 where a request is cut off or wrong. */
#include "lintelrye.h"
#include <stdio.h>

typedef lintelrye_answer call(uint32_t context, const uint8_t *text, size_t text_length, uint8_t *output, size_t output_length);

static call *const calls[4] = {lintelrye_encode, lintelrye_decode, lintelrye_take, lintelrye_browse};

/* No text is longer than the limit and one byte, no result longer than that of ascii_quoted. */
static uint8_t text[LINTELRYE_TEXT_LIMIT + 1];
static uint8_t output[LINTELRYE_ASCII_ENCODED_AT_MOST(LINTELRYE_TEXT_LIMIT)];

/* Makes the call of a request and returns its answer; the result goes to the output. */
static lintelrye_answer answer_to(uint8_t operation, uint8_t context, size_t length)
{
    if (operation < 4)
        return calls[operation](context, text, length, output, sizeof output);
    lintelrye_closing c = lintelrye_closing_tag(text, length);
    lintelrye_answer a = {0};
    a.status = c.status;
    a.length = c.found ? 4 : 0;
    for (int k = 0; k < 4; k++)
        output[k] = (uint8_t)(c.place >> 8 * k);
    return a;
}

int main(void)
{
    uint8_t head[6];
    size_t got;
    while ((got = fread(head, 1, sizeof head, stdin)) == sizeof head) {
        size_t length = head[2] | head[3] << 8 | (size_t)head[4] << 16 | (size_t)head[5] << 24;
        if (head[0] > 4 || length > sizeof text || fread(text, 1, length, stdin) != length)
            return 2;
        lintelrye_answer a = answer_to(head[0], head[1], length);
        size_t n = a.status ? 0 : (size_t)a.length;
        uint8_t back[5] = {(uint8_t)a.status, (uint8_t)n, (uint8_t)(n >> 8), (uint8_t)(n >> 16), (uint8_t)(n >> 24)};
        if (fwrite(back, 1, sizeof back, stdout) != sizeof back || fwrite(output, 1, n, stdout) != n)
            return 2;
    }
    return got || ferror(stdin) || fflush(stdout) ? 2 : 0;
}
