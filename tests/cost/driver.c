/* One call on one file, as service: driver graph|stock FILE, or driver budget FILE SEARCHES. Ends with the refusal's number, 0 for an answer, or 100
 * where there is no file. */
#include <stdio.h>
#include <string.h>
#include "lanes.h"

/* By hand: a function of the C library more changes the counts, for its name is looked up during the call. */
static uint32_t decimal(const char *digits) {
  uint32_t value = 0;
  while (*digits) value = 10 * value + (uint32_t)(*digits++ - '0');
  return value;
}

int main(int count, char **words) {
  static uint8_t file[60001], out[LANES_ROOM];
  uint32_t tally[16] = {0};
  FILE *in = count == (count > 1 && !strcmp(words[1], "budget") ? 4 : 3) ? fopen(words[2], "rb") : NULL;
  if (!in) return 100;
  size_t size = fread(file, 1, sizeof file, in);
  fclose(in);
  uint64_t told = !strcmp(words[1], "graph") ? lanes_graph(file, size, LANES_SERVICE, out, sizeof out, tally)
                : count == 4 ? lanes_budget(file, size, LANES_SERVICE, decimal(words[3]), out, sizeof out, tally)
                             : lanes_stock(file, size, LANES_SERVICE, out, sizeof out, tally);
  return LANES_NUMBER(told);
}
