/* Texts and files from standard input, each behind three words of 32 bits: 0 for a text that is read or 1 for a file that is printed, its length, and that
 * of the buffer. For each a line with what shelf_read_text or shelf_print_text answered, the refusal's number and place, and the bytes that it wrote in
 * hexadecimal. The buffer begins with a pattern, and so does what the call may not write. */
#include "shelf.h"

#include <stdio.h>
#include <stdlib.h>
#include <string.h>

enum { TEXT_MOST = 400000, OUT_MOST = 400000, PATTERN = 0xa5 };

static uint8_t text[TEXT_MOST], out[OUT_MOST];

static int is_pattern(const uint8_t *bytes, size_t count)
{
    for (size_t i = 0; i < count; i++)
        if (bytes[i] != PATTERN)
            return 0;
    return 1;
}

int main(void)
{
    uint32_t words[3];

    while (fread(words, sizeof words, 1, stdin) == 1) {
        size_t written = 12345, place = 0;
        uint16_t number;

        if (words[1] > TEXT_MOST || words[2] > OUT_MOST || fread(text, 1, words[1], stdin) != words[1])
            return 2;
        memset(out, PATTERN, sizeof out);
        number = (words[0] == 0 ? shelf_read_text : shelf_print_text)(text, words[1], out, words[2], &written, &place);
        if (number != 0 && written != 12345)
            puts("a refusal wrote the count");
        if (number != 0)
            written = 0;
        if (!is_pattern(out + written, sizeof out - written))
            puts("bytes were written behind the answer");
        printf("%u %zu ", number, place);
        for (size_t i = 0; i < written; i++)
            printf("%02x", out[i]);
        putchar('\n');
    }
    return 0;
}
