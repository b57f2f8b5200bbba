/* Reads the array `Rows` of the pallet bench by a continued read, and again by ciplink_t_read_whole, lists the symbols, sends two
 * clicks on `Count` as one masked write, and prints it all. examples/build makes it; by hand, from the root of the repository:
 *   examples/build library && cc -I crates/ciplink examples/pallet.c target/staticlib/libciplink.a -o target/pallet && target/pallet */
#include <stdio.h>
#include <string.h>

#include "ciplink.h"

static const uint8_t names[] = "CellTypeRun";
static const uint8_t tag_names[] = "CountRowsCell";
static const uint8_t templates[] = {1, 2, 3, 4, 5, 6, 7, 8};

static const ciplink_structure structures[] = {{0, 8, 0x100, 0x1234, 4, 0, 1, 0, 0, 8}};
static const ciplink_member members[] = {{8, 3, 0xC1, 0, 0, 2, 0, 0, 0}}; /* Run: bit 2 of byte 0 */
static const ciplink_tag tags[] = {
    {0, 0, 5, 1, 0xC4, {0, 0, 0}, 1, 0, 0, 0},                              /* Count, a DINT */
    {0, 5, 4, 2, 0xC4, {10, 0, 0}, 10, 0, 0, 4},                            /* Rows, 10 DINTs */
    {0, 9, 4, 0xFFFFFFFFu, CIPLINK_STRUCTURE + 0, {0, 0, 0}, 1, 0, 0, 44}}; /* Cell */
static const ciplink_program no_programs[1];                                /* no pointer is NULL */
static const ciplink_other no_others[1];

static uint8_t memory[48] = {0x2A, 0, 0, 0}; /* Count is 42 */

static const ciplink_tables bench = {
    structures, 1, members, 1, no_programs, 0, tags, 3, no_others, 0, names, sizeof names - 1, tag_names, sizeof tag_names - 1,
    templates, sizeof templates, CIPLINK_MULTI_SERVICE | CIPLINK_INSTANCE_IDS, memory, sizeof memory};

static uint32_t number(const uint8_t *bytes) {
  return bytes[0] | (uint32_t)bytes[1] << 8 | (uint32_t)bytes[2] << 16 | (uint32_t)bytes[3] << 24;
}

/* the entries of a list by attribute 1: the ID, then the name behind its length */
static void print_symbols(const uint8_t *entries, size_t length) {
  for (size_t at = 0; at + 6 <= length; at += 6 + entries[at + 4])
    printf("symbol %u %.*s\n", (unsigned)number(entries + at), entries[at + 4], (const char *)entries + at + 6);
}

/* two masked writes to Count, bit 0 on with the bits from 4 on off, then bits 4 to 7 on, sent as one */
static int click(void) {
  uint8_t request[] = {0x4E, 4, 0x91, 5, 'C', 'o', 'u', 'n', 't', 0, 4, 0, 0x01, 0, 0, 0, 0x0F, 0, 0, 0}, reply[8];
  const uint8_t next_ors[] = {0xF0, 0, 0, 0}, next_ands[] = {0xFF, 0, 0, 0};
  if (!ciplink_join_masks(request + 12, 4, request + 16, 4, next_ors, sizeof next_ors, next_ands, sizeof next_ands)) return 0;
  uint64_t length = ciplink_t_message(&bench, request, sizeof request, sizeof reply, reply, sizeof reply);
  return length < CIPLINK_REFUSED && reply[2] == 0;
}

int main(void) {
  uint8_t joined[40], whole[40], reply[22], symbols[64];
  const uint8_t path[] = {0x91, 4, 'R', 'o', 'w', 's'}, none[] = {0x91, 4, 'N', 'o', 'n', 'e'};
  const uint8_t by_name[] = {1, 0, 1, 0}; /* one attribute, number 1 */
  size_t got = 0;

  for (int i = 0; i < 10; i++) memory[4 + 4 * i] = (uint8_t)(i * i); /* Rows: 0, 1, 4, 9 .. */
  memory[44] = 4;                                                    /* Cell.Run is on */

  ciplink_told told; /* which rule the tables break, if they break one */
  if (ciplink_t_breach(&bench, &told) != 0) {
    printf("table %u, row %u: %s\n", (unsigned)told.table, (unsigned)told.row, ciplink_rule_text(told.rule));
    return 1;
  }

  do {
    /* 0x52, the path `Rows`, 10 elements, and as the offset what is there already */
    uint8_t request[] = {0x52, 3, 0x91, 4, 'R', 'o', 'w', 's', 10, 0, (uint8_t)got, 0, 0, 0};
    uint64_t length = ciplink_t_message(&bench, request, sizeof request, sizeof reply, reply, sizeof reply);
    if (length >= CIPLINK_REFUSED) {
      printf("refused by entry item %u\n", (unsigned)(length - CIPLINK_REFUSED));
      return 1;
    }
    if ((reply[2] != 0 && reply[2] != 6) || length <= 6 || got + (length - 6) > sizeof joined) {
      printf("status 0x%02X after %zu bytes\n", reply[2], got);
      return 1;
    }
    /* service, 0, status, 0 and the type, then the data */
    printf("%zu bytes, status 0x%02X\n", (size_t)length - 6, reply[2]);
    memcpy(joined + got, reply + 6, (size_t)length - 6);
    got += (size_t)length - 6;
  } while (reply[2] == 6);

  /* the same done by the library: the joined bytes are those selected */
  uint64_t bytes = ciplink_t_read_whole(&bench, path, sizeof path, 10, sizeof reply, reply, sizeof reply, whole, sizeof whole);
  if (bytes != got || memcmp(joined, whole, got) != 0) {
    printf("the whole read differs\n");
    return 1;
  }
  for (size_t at = 0; at + 4 <= got; at += 4) printf("Rows[%zu] = %u\n", at / 4, (unsigned)number(joined + at));

  /* eleven elements of ten, and a tag that is not there */
  uint64_t beyond = ciplink_t_read_whole(&bench, path, sizeof path, 11, sizeof reply, reply, sizeof reply, whole, sizeof whole);
  uint64_t unknown = ciplink_t_read_whole(&bench, none, sizeof none, 1, sizeof reply, reply, sizeof reply, whole, sizeof whole);
  printf("turned away: status 0x%02X, word 0x%04X; status 0x%02X, word 0x%04X\n", ciplink_general_status(beyond),
         ciplink_extended_word(beyond), ciplink_general_status(unknown), ciplink_extended_word(unknown));

  /* all symbols of the controller's scope; an empty name is passed as a pointer to something */
  bytes = ciplink_t_list_whole(&bench, names, 0, by_name, sizeof by_name, sizeof reply, reply, sizeof reply, symbols, sizeof symbols);
  if (bytes >= CIPLINK_REFUSED) {
    printf("the symbols are not listed: 0x%llX\n", (unsigned long long)bytes);
    return 1;
  }
  print_symbols(symbols, (size_t)bytes);

  printf("Count = %u\n", (unsigned)number(memory));
  if (!click()) {
    printf("the clicks were not taken\n");
    return 1;
  }
  printf("Count = %u after two clicks in one\n", (unsigned)number(memory));
  return 0;
}
