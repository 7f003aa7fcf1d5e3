/* Reads the rules' example frame and prints where the section of a sample lies.
 * Usage: where [x y]     (default 299 99) */
#include <stdio.h>
#include <stdlib.h>

#include "hingevale.h"

enum { SECTIONS = 16 };

static const uint8_t bytes[] = {0x01, 0x28, 0x00, 0x00, 0x0C, 0x00, 0xFA, 0x50, 0x00};

/* Prints a refusal, or "order needed", and ends the program. */
static void check(uint64_t status) {
    if (status == 0) return;
    printf("refused %u at bit %llu\n", HINGEVALE_NUMBER(status), (unsigned long long)HINGEVALE_PLACE(status));
    exit(1);
}

int main(int argc, char **argv) {
    uint32_t x = argc == 3 ? (uint32_t)strtoul(argv[1], NULL, 10) : 299;
    uint32_t y = argc == 3 ? (uint32_t)strtoul(argv[2], NULL, 10) : 99;
    uint8_t name[HINGEVALE_NAME_BYTES];
    uint32_t none[1];
    uint64_t w[HINGEVALE_HEADER_WORDS];
    int32_t signs[HINGEVALE_HEADER_SIGNED];
    float floats[HINGEVALE_HEADER_FLOATS];
    check(hingevale_read_frame_header(bytes, sizeof bytes, 300, 100, false, false, 0, false, false, name, sizeof name, none, 0, none, 0, w,
                                      HINGEVALE_HEADER_WORDS, signs, HINGEVALE_HEADER_SIGNED, floats, HINGEVALE_HEADER_FLOATS));
    uint32_t width = w[35], height = w[36], upsampling = w[6], level = w[33], shift = w[7], passes = w[10];
    uint64_t offsets[SECTIONS], toc[HINGEVALE_TOC_WORDS], place[2], section;
    uint32_t sizes[SECTIONS], order[SECTIONS], inverse[SECTIONS];
    check(hingevale_read_toc(bytes, sizeof bytes, width, height, upsampling, level, shift, passes, w[0], offsets, SECTIONS, sizes, SECTIONS,
                             order, SECTIONS, inverse, SECTIONS, toc, HINGEVALE_TOC_WORDS));
    check(hingevale_section_of_sample(width, height, upsampling, level, shift, passes, x, y, 0, &section, 1));
    check(hingevale_section_at(width, height, upsampling, level, shift, passes, offsets, SECTIONS, sizes, SECTIONS, (uint32_t)section, place,
                               2));
    printf("%llu sections, data from byte %llu, %llu bytes in all\n", (unsigned long long)toc[0], (unsigned long long)toc[1],
           (unsigned long long)toc[2]);
    printf("sample %u, %u of pass 0: section %llu at byte %llu, %llu bytes\n", x, y, (unsigned long long)section,
           (unsigned long long)place[0], (unsigned long long)place[1]);
    return 0;
}
