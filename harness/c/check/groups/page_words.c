/* page_words.c - the host's reads and writes: answers 9, 17 and 18. */
#include "check/groups/groups.h"

#include <string.h>

#include "check/groups/page_calls.h"
#include "check/random.h"
#include "check/report.h"
#include "check/sizes.h"
#include "check/words.h"

/* Offsets 0 to 79, and far ones, of which some look allowed without their high
   bits. */
void group_page_words(void)
{
    static const uint32_t far[] = {256, 264, 0x10008, 0x80000008, 0xFFFFFFFC,
                                   0xFFFFFFFF};
    uint8_t page[PRESENCE_PAGE_BYTES + 8], old[PRESENCE_PAGE_BYTES];
    uint32_t offset, value, i, is_word;
    size_t len = PRESENCE_PAGE_BYTES;

    begin_group("words of a page");
    for (i = 0; i < 80 + COUNT(far); i++) {
        offset = i < 80 ? i : far[i - 80];
        is_word = offset < 64 && offset % 4 == 0;
        random_page(page, sizeof page);
        value = host(PAGE_READ, page, len, offset, 0, is_word ? 0 : 17);
        if (is_word)
            same("word read", value, get(page, offset / 4));
        memcpy(old, page, len);
        value = random32();
        host(PAGE_WRITE, page, len, offset, value,
             !is_word ? 17 : offset == 8 || offset == 12 ? 0 : 18);
        if (offset == 8)
            put(old, 2, get(old, 2) & ~value);
        if (offset == 12)
            put(old, 3, value);
        if (memcmp(page, old, len) != 0)
            differ("page written", offset, 0);
        host(PAGE_READ, page, len - 1, offset, 0, 9);
        host(PAGE_WRITE, page, len + 1, offset, value, 9);
        host(INTERRUPT, page, i % 64, 0, 0, 9);
    }
    end_group();
}
