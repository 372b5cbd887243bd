/* The pairing engine's calls, in liblanes_c.a (document 01, "Questions put to a call"; document 02: lanes_budget L4, refusal 16 L5, lanes_stock L6,
 * callers L7, kept pairings L8).
 *
 * A file and a buffer are a pointer and a number of bytes, each readable (a buffer also writable) over its whole length during the call; a buffer
 * overlaps neither the file nor the tally. No pointer is null. A call keeps nothing behind; calls that run at once, in several threads, take a buffer and a
 * tally each, also where their callers differ, for a call reads and writes all sixteen counts.
 *
 * The lines of a file end with a line feed or with a carriage return and a line feed, also mixed in one file; those of an answer with a line feed alone.
 *
 * lanes_graph, lanes_stock and lanes_budget name their caller, whose counts in the tally are
 *
 *   caller            paths       barriers    stock answers   refusals
 *   LANES_FOREMAN 0   tally[0]    tally[1]    tally[2]        tally[3]
 *   LANES_GRADER  1   tally[4]    tally[5]    tally[6]        tally[7]
 *   LANES_SERVICE 2   tally[8]    tally[9]    tally[10]       tally[11]
 *   LANES_STORES  3   tally[12]   tally[13]   tally[14]       tally[15]
 *
 * A call counts up one of its caller's four and leaves the other fifteen; a count at 4,294,967,295 stays there. A caller above 3 is refused with 17,
 * before all else, and counted nowhere. Start with zeros and hand the same sixteen to every call.
 *
 * A call returns the refusal (the number of the first question answered no, or 0 for an answer) in the lowest byte and the answer's bytes above:
 * LANES_NUMBER and LANES_SIZE; lanes_budget also the searches that it ran: LANES_SEARCHES. A refusal changes no byte of the buffer; an answer only
 * its own at the front. A buffer of LANES_ROOM bytes holds every answer; a smaller one is refused with 1.
 */
#ifndef LANES_H
#define LANES_H

#include <stddef.h>
#include <stdint.h>

#ifdef __cplusplus
extern "C" {
#endif

#define LANES_FOREMAN 0
#define LANES_GRADER 1
#define LANES_SERVICE 2
#define LANES_STORES 3

#define LANES_ROOM 2048

#define LANES_NUMBER(told) ((unsigned)((told) & 0xFF))
#define LANES_SIZE(told) ((size_t)(((told) >> 8) & 0xFFFFFFFF))
#define LANES_SEARCHES(told) ((unsigned)((told) >> 40))

/* The most searches that lanes_budget may be granted, enough for a plan of every stock. */
#define LANES_SEARCHES_MOST 64

/* A graph file: a regular path from the source to its mate or, where there is none, the canonical barrier. A graph that passes
 * questions 2 to 9 and has an arc from a node to itself is refused with 16, by the check too. */
uint64_t lanes_graph(const uint8_t *file, size_t file_size, uint32_t caller, uint8_t *out, size_t out_size, uint32_t tally[16]);

/* A stock file: a plan, directly followed by the standing sheet.
 * The plan: as many pairs as possible, every lit camera still lit; the lit pairs where those are as many. Header 51PP, lines 52UUVV, end 5FCCCC.
 * The sheet: the same whichever pairs are lit, the greatest number of pairs and a mark for each camera. Header 41PP, lines 43UUKK, end 4FCCCC. It begins at
 * byte 12 + 7 * PP, with the plan's PP, which is the sheet's too. Mark 00: some largest pairing leaves the camera over, and it has a fit; 01: none does, and it
 * fits a camera marked 00; 02: none does, and it fits no such camera; 03: it has no fit at all. */
uint64_t lanes_stock(const uint8_t *file, size_t file_size, uint32_t caller, uint8_t *out, size_t out_size, uint32_t tally[16]);

/* A stock file and how many searches may be run, 0 to LANES_SEARCHES_MOST; more are refused with 15. Each search lights one lane more, every lit camera
 * still lit, or finds that none can be lit, and then it is the last. The answer is a header 61PPSSMM, the pair lines of a plan, and 6FCCCC: PP pairs
 * after SS searches. MM is 00 if the last search found none, and otherwise half the cameras left over, rounded down; no pairing has more than PP plus
 * MM pairs. */
uint64_t lanes_budget(const uint8_t *file, size_t file_size, uint32_t caller, uint32_t most, uint8_t *out, size_t out_size, uint32_t tally[16]);

/* A graph file and a certificate, a path or a barrier: 1 for yes, 0 for no, otherwise the refusal, which is 2 or more: the graph's number (2 to 10 or 16), or
 * the certificate's with 40 added. */
uint8_t lanes_check(const uint8_t *graph, size_t graph_size, const uint8_t *certificate, size_t certificate_size);

/* Pairings kept under names, for one stock. The state is a block of LANES_STATE bytes that the caller keeps and lends to each call; it may be copied or
 * stored like any bytes. lanes_power_on sets it to what it is before the first stock: the stock without cameras, and no names (so do zeros). From there
 * on only these calls change it. It overlaps neither file nor buffer; calls that run at once take a state each. They name no caller and enter no tally.
 *
 *   uint8_t state[LANES_STATE];
 *   lanes_power_on(state);
 *   if (lanes_bring(state, stock, stock_size) == 0 && lanes_keep(state, 'A', plan, plan_size) == 0) ..
 *   uint64_t told = lanes_come_back(state, 'A', out, sizeof out);
 *
 * Up to LANES_NAMES pairings are kept, each under a name of one byte; every byte is a name. A refused call changes no byte of the state. */
#define LANES_STATE 8828
#define LANES_NAMES 8

void lanes_power_on(uint8_t state[LANES_STATE]);

/* A stock file becomes the present stock, and no name is kept then, also if it is the same stock again. Its lit pairs are not kept. 0, or the refusal:
 * 2 to 9 and 11 to 14. */
uint8_t lanes_bring(uint8_t state[LANES_STATE], const uint8_t *file, size_t file_size);

/* A plan file, as lanes_stock writes one at the front of its answer (12 + 7 * PP bytes): header 51PP, lines 52UUVV, end 5FCCCC. Its pairs are kept under
 * the name, in place of those that stood there. They are to be fits of the present stock, no camera in two, but need not be as many as possible. 0, or the
 * refusal: 2, 3, 4, 6, 7 (CCCC and PP are both the number of pair lines), 9, 12, 13, 14, or 19 where the name is new and LANES_NAMES are kept. */
uint8_t lanes_keep(uint8_t state[LANES_STATE], uint8_t name, const uint8_t *file, size_t file_size);

/* The pairs last kept under the name, in plan frames at the buffer's front. Returns what the other calls with a buffer return: LANES_NUMBER, 1 or 18 (the name
 * is not kept), and LANES_SIZE. */
uint64_t lanes_come_back(const uint8_t state[LANES_STATE], uint8_t name, uint8_t *out, size_t out_size);

/* The name is kept no longer, and its place can be used again. 0, or 18. */
uint8_t lanes_forget(uint8_t state[LANES_STATE], uint8_t name);

#ifdef __cplusplus
}
#endif

#endif
