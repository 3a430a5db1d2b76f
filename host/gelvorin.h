/* The judging calls of Gelvorin, for a program in C. Link with crates/host/out/libhost.a, which `rt lib` in crates/host writes.
 *
 * Whatever the numbers and whatever the bytes of its lists, a call ends, and answers a value or a refusal; none relies on its caller
 * having looked first. Each answers one number: the value, which is below GELVORIN_REFUSED, or GELVORIN_REFUSED and the number of the
 * refusal (README.md has their table), to which a call on a sheet adds the file and the line of the fault.
 *
 * A list is passed as a pointer to its first element and the number of its elements behind it. What a pointer points to is the
 * caller's to get right, since no call can see it:
 * - a list's pointer is never null, also where the list is empty;
 * - as many elements stand there as the number behind it says;
 * - a buffer overlaps no other list of its call, and nothing else reads or writes it while the call runs; nothing writes to a list that
 *   a call reads while it runs.
 * A list that is only read is left as it was.
 *
 * The calls keep nothing once they have returned, and may be made from several threads at once: the library has no variable outside its
 * functions and takes no memory, so a call writes to its own stack and to the buffer that it was lent, and to nothing else.
 *
 * Each call is proved to answer what its definition under crates/ says. */
#ifndef GELVORIN_H
#define GELVORIN_H

#include <stddef.h>
#include <stdint.h>

#ifdef __cplusplus
extern "C" {
#endif

/* What is added to a refusal's number. */
#define GELVORIN_REFUSED UINT64_C(4294967296)

/* The parts of a refusal: its number; and of a call on a sheet (gelvorin_enter, gelvorin_withdraw, gelvorin_enter_list) the file that
 * the fault stands in, 1 for the sheet and 2 for the list, and its line there, counted from 1. Both are 0 where the fault stands in
 * neither, and for every other call. */
#define GELVORIN_NUMBER(answer) ((uint32_t)((answer)&0xFF))
#define GELVORIN_FILE(answer) ((uint32_t)((answer) >> 8 & 0xFF))
#define GELVORIN_LINE(answer) ((uint32_t)((answer) >> 16 & 0xFFFF))

/* The bytes of the longest sheet that is written. One that is read has up to 8229, where its results are weighed. */
#define GELVORIN_SHEET_ROOM 5429

/* The number of primary samples for a number of containers of so many whole kilograms each (ISTA 2.5.1.2).
 * Refused with 17, outside the table: either is 0 or above 65535. */
uint64_t gelvorin_samples(uint32_t containers, uint32_t kilograms);

/* Whether the number of seeds found is within the tolerance of the number on the label (AOSA Table 14G): 1 within, 0 out.
 * Refused with 17, outside the table: labelled is above 100. */
uint64_t gelvorin_label(uint32_t labelled, uint32_t found);

/* Whether the numbers of seeds found by two tests are within the tolerance of each other (AOSA Table 14H): 1 within, 0 out.
 * Refused with 17, outside the table: their average, rounded half up, is above 501. */
uint64_t gelvorin_pair(uint32_t first, uint32_t second);

/* Whether component lots with these results may be mixed: 1 if the largest less the smallest is at most the tolerated range, else 0.
 * Results and range are in one unit: hundredths of a percent, or whole seeds.
 * Refused with 17, outside the table: fewer than 2 or more than 60 results; else with 7, result too high: one is above 10000. */
uint64_t gelvorin_mixing(const uint32_t *results, size_t count, uint32_t tolerated);

/* A weight in tenths of a milligram, from the 32 bits of an IEEE float that is a number of grams, as a balance sends them: the nearest
 * whole number to what the bits mean exactly, the larger of two equally near.
 * Refused with 19, bad weight: a sign bit, also that of minus zero, no finite number, or above 1000 g. */
uint64_t gelvorin_tenths(uint32_t bits);

/* X of a sample that was weighed, in hundredths of a percent: the component's share of both rounded weights, half up. The status is the
 * balance's (0 steady, 1 unsteady, 2 overload); the weights are the bits of floats, as above.
 * Refused with 18, not steady: the status is not 0, whatever the weights; else with 19, bad weight: either is one, or both are rounded
 * to zero. */
uint64_t gelvorin_weighed(uint32_t status, uint32_t component, uint32_t remainder);

/* Judges a sheet: lays what lotreport prints for it, the five lines of the report or the line REFUSED, at the front of the buffer.
 * Answers the length of the text; the bytes behind it stay as they were. Any bytes are a sheet or have a first fault, which the text
 * names with its line.
 * Refused with 16, buffer short: the buffer is smaller than the text, and stays as it was. */
uint64_t gelvorin_judge(const uint8_t *sheet, size_t length, uint8_t *buffer, size_t size);

/* Reads a sheet and writes it back: its frames in their order, the results in ascending container order, each as 05, weighed or not.
 * GELVORIN_SHEET_ROOM bytes are room for every sheet that is written. Answers the length of what was written to the front of the
 * buffer; the bytes behind it stay as they were.
 * Refused with the number of the sheet's first fault (1 to 9, 14, 18, 19), or with 16, buffer short; then the buffer stays as it was. */
uint64_t gelvorin_rewrite(const uint8_t *sheet, size_t length, uint8_t *buffer, size_t size);

/* The calls on a sheet. A host keeps the state of a lot as its sheet: each call reads it, makes one call on its tally and writes the sheet
 * after it, as gelvorin_rewrite does, so the sheet that one call wrote is what the next is given, and GELVORIN_SHEET_ROOM bytes are room
 * for it. Each answers the length of the sheet, which stands at the front of the buffer; the bytes behind it stay as they were.
 * Where a call is refused, the buffer stays as it was. The first refusal that applies is told, in this order: the sheet's first fault,
 * with file 1 and its line (1 to 9, 14, 18, 19); that of the call; 16, buffer short. */

/* Enters a result: x for a container, in hundredths of a percent or in whole seeds.
 * Refused with 6, no such container: 0 or above the number of containers; 7, result too high: above 10000; 8, already held; 9, full: 200
 * results are held. These have neither file nor line. */
uint64_t gelvorin_enter(const uint8_t *sheet, size_t length, uint32_t container, uint32_t x, uint8_t *buffer, size_t size);

/* Withdraws the result of a container.
 * Refused with 10, not held, with neither file nor line. */
uint64_t gelvorin_withdraw(const uint8_t *sheet, size_t length, uint32_t container, uint8_t *buffer, size_t size);

/* Enters a comma list: lines of container, comma, value, each ended by byte 0A, in plain decimal digits; a percentage may have a point
 * and one or two digits behind it. A list without a line is accepted. A faulty line ends the list, and none of it is entered.
 * Refused with 20, bad list line; else with 6, 7, 8 or 9 as the line's enter is; with file 2 and the line. */
uint64_t gelvorin_enter_list(const uint8_t *sheet, size_t length, const uint8_t *list, size_t list_length, uint8_t *buffer, size_t size);

#ifdef __cplusplus
}
#endif

#endif
