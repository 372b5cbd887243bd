/* Kept pairings on one stock: kept STOCK NAMES. The stock is brought, its plan kept under so many names, then once more under the first of them, come back
 * to, and forgotten. Ends with the first refusal's number, 0 where there is none, or 100 where there is no file. */
#include <stdio.h>
#include "lanes.h"

int main(int count, char **words) {
  static uint8_t file[60001], out[LANES_ROOM], state[LANES_STATE];
  uint32_t tally[16] = {0};
  FILE *in = count == 3 ? fopen(words[1], "rb") : NULL;
  if (!in) return 100;
  size_t size = fread(file, 1, sizeof file, in);
  fclose(in);
  uint64_t told = lanes_stock(file, size, LANES_SERVICE, out, sizeof out, tally);
  if (LANES_NUMBER(told)) return LANES_NUMBER(told);
  /* the plan half ends where the sheet's header begins, 41PP behind a line feed */
  size_t plan = 1;
  while (!(out[plan - 1] == '\n' && out[plan] == '4')) plan++;
  unsigned number = lanes_bring(state, file, size);
  for (uint8_t name = 0; name < words[2][0] - '0' && !number; name++) number = lanes_keep(state, name, out, plan);
  if (!number) number = lanes_keep(state, 0, out, plan);
  if (!number) number = LANES_NUMBER(lanes_come_back(state, 0, out, sizeof out));
  if (!number) number = lanes_forget(state, 0);
  return number;
}
