/* For each length given: a volume whose shortest file area has it, the longest append, the size of its first block and the number of its blocks.
   Prints 'length size number'. */
#include "nffs.h"

#include <stdio.h>
#include <stdlib.h>

enum { LONG = 16384, AREAS = 4 };
static uint8_t image[AREAS * LONG];
static uint8_t data[NFFS_APPEND_MOST];

int main(int count, char **words) {
    for (int i = 1; i < count; i++) {
        const uint32_t length = (uint32_t)strtoul(words[i], NULL, 10);
        const nffs_area areas[AREAS] = {{0, LONG}, {LONG, LONG}, {2 * LONG, LONG}, {3 * LONG, length}};
        const nffs_volume flash = {image, sizeof image, areas, AREAS};
        if (nffs_volume_format(&flash) != NFFS_OK) {
            return 1;
        }
        const nffs_create_answer file = nffs_volume_create(&flash, NULL, "/f", NFFS_FILE);
        if (file.number != NFFS_OK || nffs_volume_append(&flash, NULL, "/f", data, sizeof data) != NFFS_OK) {
            return 1;
        }
        /* a read follows the headers from the last block back to the one that holds its first byte */
        uint8_t byte;
        const uint32_t blocks = nffs_volume_read_at(&flash, file.id, 0, &byte, 1).headers;
        if (blocks == 0) {
            return 1;
        }
        uint32_t size = 1;
        while (nffs_volume_read_at(&flash, file.id, size, &byte, 1).headers == blocks) {
            size++;
        }
        printf("%u %u %u\n", (unsigned)length, (unsigned)size, (unsigned)blocks);
    }
    return 0;
}
