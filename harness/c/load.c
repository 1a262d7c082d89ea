/* Loads the sheet on standard input by the library, and prints the status and
 * the answer's number and values: on the large instrument, on the entry
 * instrument, by the door that the latter has alone, and on the four-channel
 * instrument; then the status where `out` has too little room, and for a number
 * that is no instrument's. */
#include "sheet_loader.h"

#include <stdio.h>

static void print(const char *loader, size_t status, const size_t *out)
{
    size_t i;

    printf("%s: ", loader);
    switch (status) {
    case SHEET_LOADER_ACCEPTED:
        printf("accepted");
        break;
    case SHEET_LOADER_REFUSED:
        printf("refused");
        break;
    case SHEET_LOADER_UNPROVED:
        printf("unproved");
        break;
    case SHEET_LOADER_UNKNOWN_INSTRUMENT:
        printf("unknown instrument");
        break;
    default:
        printf("no answer");
    }
    for (i = 1; i < SHEET_LOADER_ROOM; i++)
        printf(" %lu", (unsigned long)out[i]);
    printf("\n");
}

int main(void)
{
    static uint8_t sheet[65537];
    size_t out[SHEET_LOADER_ROOM];
    size_t size = fread(sheet, 1, sizeof sheet, stdin);
    size_t status;

    status = sheet_loader_load(SHEET_LOADER_LARGE, sheet, size, out, SHEET_LOADER_ROOM);
    print("large", status, out);
    status = sheet_loader_load(SHEET_LOADER_ENTRY, sheet, size, out, SHEET_LOADER_ROOM);
    print("entry", status, out);
    status = sheet_loader_load_entry(sheet, size, out, SHEET_LOADER_ROOM);
    print("entry alone", status, out);
    status = sheet_loader_load(SHEET_LOADER_FOUR, sheet, size, out, SHEET_LOADER_ROOM);
    print("four", status, out);
    status = sheet_loader_load(SHEET_LOADER_LARGE, sheet, size, out, SHEET_LOADER_ROOM - 1);
    printf("%s\n", status == SHEET_LOADER_NOT_WRITTEN ? "not written" : "written");
    status = sheet_loader_load(0, sheet, size, out, SHEET_LOADER_ROOM);
    print("0", status, out);
    return 0;
}
