/* What a C example of the documents stands in: docs/examples.sh puts it in the place of the line that says so. */
#include <stdio.h>

#include "cartsundial.h"

static uint8_t board[16417];
static const uint8_t header[] = { 0x40, 0x00, 0x00, 0x01, 0x00, 0x00, 0x02, 0x0F, 0xF8, 0x10, 0x00, 0x10 };
static const size_t header_len = sizeof header;

int main(void)
{
    FILE *file = fopen("docs/example/board", "rb");
    size_t board_len = file == NULL ? 0 : fread(board, 1, sizeof board, file);

    if (file == NULL || fclose(file) != 0)
        return 1;
    {
        /* EXAMPLE */
    }
    return 0;
}
