/* The same from C: `P { x: 7 }` counted, and written where the count says that it fits. */
#include <stdio.h>

#include "../table_text.h"

int main(void)
{
    static const uint8_t text[] = {'P', 'x'};
    static const uint64_t calls[] = {
        TABLE_TEXT_OPEN_STRUCT,    0, 1, 0, 0,
        TABLE_TEXT_FIELD,          1, 1, 0, 0,
        TABLE_TEXT_UNSIGNED_DEBUG, 0, 0, 7, TABLE_TEXT_8_BITS,
        TABLE_TEXT_FINISH,         0, 0, 0, 0,
    };
    const size_t words = sizeof calls / sizeof calls[0];
    uint8_t packet[16], answers[4];
    size_t total = 0, open = 0, cursor = 0;

    uint8_t answer = table_text_count_each(TABLE_TEXT_DECIMAL, calls, words, text, sizeof text,
                                           &total, &open, answers, sizeof answers);
    printf("counted: answer %u, %zu bytes, %zu open\n", answer, total, open);
    for (size_t i = 0; i < sizeof answers; i++)
        if (answers[i] != 0)
            printf("call %zu refused with %u\n", i, answers[i]);
    if (answer != 0 || open != 0 || sizeof packet < total)
        return 1;
    answer = table_text_write(TABLE_TEXT_DECIMAL, packet, sizeof packet, &cursor, calls, words, text, sizeof text);
    if (answer != 0)
        return 1;
    printf("written: %.*s\n", (int)cursor, (const char *)packet);
    return cursor != total;
}
