/* Runs a dossier through Drevaloci from C: the file that is named, or the 81-byte dossier of the
 * requirements. Prints `value COUNT BITS` or `refused NO PLACE`; exit status 0 for a value, 1 for a
 * refusal, 2 where nothing was run. */
#include "../drevaloci.h"

#include <stdio.h>

static const uint8_t known[81] = {
    0, 0, 0, 1,  0, 0, 0, 3,  0, 0, 0, 56, 0, 0, 0, 2,  0, 0, 0, 71, /* version; types; program */
    0, 0, 0, 2,  0, 0, 0, 73, 0, 0, 0, 0,  0, 0, 0, 81,              /* arrows; witness */
    0, 0, 0, 0,  0, 0, 0, 81, 0, 0, 0, 0,  0, 0, 0, 81, 0, 0, 0, 81, /* input; hashes; total */
    0, 0, 0, 0, 0,  1, 0, 0, 0, 0,  1, 0, 0, 0, 1,                   /* 1, 1+1, 1+(1+1) */
    0x89, 0x20,                                                      /* injl of unit */
    0, 0, 0, 0,  0, 0, 0, 2,                                         /* 1 to 1, 1 to 1+(1+1) */
};

static uint8_t dossier[DREVALOCI_DOSSIER_BYTES + 1];
static uint32_t nodes[DREVALOCI_NODE_NUMBERS];
static uint8_t hashes[DREVALOCI_HASH_BYTES];
static uint8_t cells[DREVALOCI_CELL_BYTES];
static uint32_t frames[DREVALOCI_FRAME_NUMBERS];
static uint8_t answer[DREVALOCI_ANSWER_BYTES];

static int print_answer(const uint8_t *bytes, size_t len) {
    uint32_t place = 0;
    uint32_t number = drevaloci_run(bytes, len, nodes, DREVALOCI_NODE_NUMBERS, hashes, DREVALOCI_HASH_BYTES,
                                    cells, DREVALOCI_CELL_BYTES, frames, DREVALOCI_FRAME_NUMBERS,
                                    answer, DREVALOCI_ANSWER_BYTES, &place);
    if (number != 0) {
        printf("refused %u %u\n", number, place);
        return 1;
    }
    printf(place == 0 ? "value %u" : "value %u ", place);
    for (uint32_t i = 0; i < place; i++)
        putchar(answer[i / 8] >> (7 - i % 8) & 1 ? '1' : '0');
    putchar('\n');
    return 0;
}

int main(int argc, char **argv) {
    if (argc < 2)
        return print_answer(known, sizeof known);
    FILE *file = fopen(argv[1], "rb");
    if (file == NULL) {
        perror(argv[1]);
        return 2;
    }
    size_t len = fread(dossier, 1, sizeof dossier, file);
    int failed = ferror(file);
    if (failed)
        perror(argv[1]);
    fclose(file);
    return failed ? 2 : print_answer(dossier, len);
}
