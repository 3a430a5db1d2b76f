/* Calls each function of gelvorin.h and prints what it answers. */
#include <inttypes.h>
#include <stdio.h>
#include <string.h>

#include "gelvorin.h"

static void print(const char *call, uint64_t answer)
{
    if (answer < GELVORIN_REFUSED)
        printf("%s: %" PRIu64 "\n", call, answer);
    else if (GELVORIN_FILE(answer) == 0)
        printf("%s: refused with %" PRIu32 "\n", call, GELVORIN_NUMBER(answer));
    else
        printf("%s: refused with %" PRIu32 " at file %" PRIu32 ", line %" PRIu32 "\n", call, GELVORIN_NUMBER(answer), GELVORIN_FILE(answer), GELVORIN_LINE(answer));
}

/* A sheet whose results do not stand in the order of their containers; one is weighed. */
static const char sheet[] = "01000028\n"
                            "020A0A03E8\n"
                            "0305009B\n"
                            "040509264800C8\n"
                            "0700280042C4000040000000\n"
                            "0500032648\n"
                            "05000C26AC\n"
                            "05000825E4\n"
                            "0500112648\n"
                            "0605\n";

/* Calls with a buffer of so many bytes, and prints the text where there is one. */
static void print_text(const char *call, uint64_t (*function)(const uint8_t *, size_t, uint8_t *, size_t), size_t length, size_t size)
{
    uint8_t buffer[GELVORIN_SHEET_ROOM];
    uint64_t answer = function((const uint8_t *)sheet, length, buffer, size);

    print(call, answer);
    if (answer < GELVORIN_REFUSED)
        fwrite(buffer, 1, answer, stdout);
}

/* The same with the calls on a sheet. */
static void print_sheet(const char *call, uint64_t answer, const uint8_t *buffer)
{
    print(call, answer);
    if (answer < GELVORIN_REFUSED)
        fwrite(buffer, 1, answer, stdout);
}

static void print_enter(const char *call, size_t length, uint32_t container, uint32_t x, size_t size)
{
    uint8_t buffer[GELVORIN_SHEET_ROOM];

    print_sheet(call, gelvorin_enter((const uint8_t *)sheet, length, container, x, buffer, size), buffer);
}

static void print_withdraw(const char *call, size_t length, uint32_t container, size_t size)
{
    uint8_t buffer[GELVORIN_SHEET_ROOM];

    print_sheet(call, gelvorin_withdraw((const uint8_t *)sheet, length, container, buffer, size), buffer);
}

static void print_list(const char *call, size_t length, const char *list, size_t size)
{
    uint8_t buffer[GELVORIN_SHEET_ROOM];

    print_sheet(call, gelvorin_enter_list((const uint8_t *)sheet, length, (const uint8_t *)list, strlen(list), buffer, size), buffer);
}

int main(void)
{
    const uint32_t results[] = {9800, 9700, 9900};
    const size_t length = strlen(sheet);

    print("samples of 20 containers of 1001 kg", gelvorin_samples(20, 1001));
    print("samples of no container", gelvorin_samples(0, 50));
    print("label 4, found 7", gelvorin_label(4, 7));
    print("label 4, found 9", gelvorin_label(4, 9));
    print("label 101", gelvorin_label(101, 0));
    print("tests of 4 and 10", gelvorin_pair(4, 10));
    print("tests of 0 and 6", gelvorin_pair(0, 6));
    print("tests of 502 and 502", gelvorin_pair(502, 502));
    print("mixing within 2.00", gelvorin_mixing(results, 3, 200));
    print("mixing within 1.99", gelvorin_mixing(results, 3, 199));
    print("mixing of one lot", gelvorin_mixing(results, 1, 200));
    print("weight of 1/32 g", gelvorin_tenths(0x3D000000));
    print("weight of minus zero", gelvorin_tenths(0x80000000));
    print("98 g and 2 g, steady", gelvorin_weighed(0, 0x42C40000, 0x40000000));
    print("98 g and 2 g, unsteady", gelvorin_weighed(1, 0x42C40000, 0x40000000));
    print("nothing weighed", gelvorin_weighed(0, 0, 0));
    print_text("the sheet judged", gelvorin_judge, length, GELVORIN_SHEET_ROOM);
    print_text("the sheet judged into 40 bytes", gelvorin_judge, length, 40);
    print_text("the first 40 bytes of the sheet judged", gelvorin_judge, 40, GELVORIN_SHEET_ROOM);
    print_text("the sheet written back", gelvorin_rewrite, length, GELVORIN_SHEET_ROOM);
    print_text("the sheet written back into 40 bytes", gelvorin_rewrite, length, 40);
    print_text("the first 40 bytes of the sheet written back", gelvorin_rewrite, 40, GELVORIN_SHEET_ROOM);
    print_enter("98.50 entered for container 2", length, 2, 9850, GELVORIN_SHEET_ROOM);
    print_enter("98.50 entered for container 41", length, 41, 9850, GELVORIN_SHEET_ROOM);
    print_enter("98.50 entered into 40 bytes", length, 2, 9850, 40);
    print_enter("98.50 entered on the first 40 bytes", 40, 2, 9850, GELVORIN_SHEET_ROOM);
    print_withdraw("container 12 withdrawn", length, 12, GELVORIN_SHEET_ROOM);
    print_withdraw("container 13 withdrawn", length, 13, GELVORIN_SHEET_ROOM);
    print_withdraw("container 12 withdrawn into 40 bytes", length, 12, 40);
    print_withdraw("container 12 withdrawn from the first 40 bytes", 40, 12, GELVORIN_SHEET_ROOM);
    print_list("a list entered", length, "2,98.5\n1,100\n", GELVORIN_SHEET_ROOM);
    print_list("a list with a bad line", length, "2,98.5\n1,.5\n", GELVORIN_SHEET_ROOM);
    print_list("a list with a container twice", length, "2,98.5\n4,97\n2,98.5\n", GELVORIN_SHEET_ROOM);
    print_list("a list entered into 40 bytes", length, "2,98.5\n", 40);
    print_list("a list entered on the first 40 bytes", 40, "2,98.5\n", GELVORIN_SHEET_ROOM);
    return 0;
}
