/* Measures the stack that each entry point of ciplink.h takes: each call runs on a painted stack of its own, with the largest
 * tables, the longest paths and nested messages. Prints the largest use of each function in bytes. oracle/stack links it. */
#include <pthread.h>
#include <stdio.h>
#include <stdlib.h>
#include <string.h>

#include "ciplink.h"

enum { STACK = 1 << 20, PAINT = 0xA5, STRUCTURES = 64, MEMBERS = 512, PROGRAMS = 16, TAGS = 1024, OTHERS = 64 };

static ciplink_structure structures[STRUCTURES];
static ciplink_member members[MEMBERS];
static ciplink_program programs[PROGRAMS];
static ciplink_tag tags[TAGS];
static ciplink_other others[OTHERS];
static uint8_t names[26752], tag_names[40960], templates[65536], memory[65536], reply[65535], out[65536], request[65535];
static ciplink_tables t = {structures, STRUCTURES, members, MEMBERS, programs, PROGRAMS, tags, TAGS, others, OTHERS, names, 0,
                           tag_names, 0, templates, sizeof templates, 3, memory, sizeof memory};

/* a name of its own: a letter and a number */
static uint32_t put_name(uint8_t *store, size_t *length, char letter, unsigned n) {
  uint32_t start = (uint32_t)*length;
  *length += (size_t)sprintf((char *)store + *length, "%c%05u", letter, n);
  return start;
}

static void fill(void) {
  for (unsigned i = 0; i < STRUCTURES; i++)
    structures[i] = (ciplink_structure){put_name(names, &t.names_length, 's', i), 6, 0x100 + i, i, 32, 8 * i, 8, 0, 0, 1024};
  for (unsigned i = 0; i < MEMBERS; i++)
    members[i] = (ciplink_member){put_name(names, &t.names_length, 'm', i), 6, 0xC4, 0, 4 * (i % 8), 8, 0, 0, 0};
  for (unsigned i = 0; i < PROGRAMS; i++) programs[i] = (ciplink_program){put_name(names, &t.names_length, 'p', i), 6};
  for (unsigned i = 0; i < TAGS; i++)
    tags[i] = (ciplink_tag){0, put_name(tag_names, &t.tag_names_length, 't', (i * 7919) % TAGS), 6, TAGS - i, 0xC4, {16, 0, 0}, 16, 0, 0, 64 * i};
  for (unsigned i = 0; i < OTHERS; i++)
    others[i] = (ciplink_other){0, put_name(names, &t.names_length, 'o', i), 6, 5000 + i, 0x1068};
}

/* a tag's name, and as many segments as a path has room for: elements, or members */
static int by_members;

static size_t long_path(uint8_t *path) {
  size_t n = 8;
  memcpy(path, "\x91\x06t00007", 8);
  while (!by_members && n + 2 <= 510) memcpy(path + n, "\x28\x00", 2), n += 2;
  while (by_members && n + 4 <= 510) memcpy(path + n, "\x91\x01m\x00", 4), n += 4;
  return n;
}

static size_t put_read(uint8_t *at, int service, int fragmented) {
  size_t n = 2 + long_path(at + 2);
  at[0] = (uint8_t)service, at[1] = (uint8_t)((n - 2) / 2);
  memset(at + n, 0, 6), at[n] = 1;
  return n + (fragmented ? 6 : 2);
}

/* an envelope of such reads, written in the whole of the request */
static size_t put_envelope(void) {
  size_t parts = 100, n = 8 + 2 * parts;
  memcpy(request, "\x0A\x02\x20\x02\x24\x01", 6);
  request[6] = (uint8_t)parts, request[7] = 0;
  for (size_t i = 0; i < parts; i++) {
    size_t from = n - 6;
    request[8 + 2 * i] = (uint8_t)from, request[9 + 2 * i] = (uint8_t)(from >> 8);
    n += i % 2 ? put_read(request + n, 0x52, 1) : put_read(request + n, 0x4C, 0);
  }
  return n;
}

static size_t put_page(void) {
  memcpy(request, "\x55\x02\x20\x6B\x24\x00\x06\x00\x01\x00\x02\x00\x03\x00\x05\x00\x06\x00\x07\x00", 20);
  return 20;
}

/* ---- the calls; `which` picks the request */

static int which;
static uint64_t result;

static void do_valid(void) { result = ciplink_t_valid(&t); }

static void do_breach(void) {
  ciplink_told told;
  result = ciplink_t_breach(&t, &told);
}

static size_t put_request(void) {
  switch (which) {
    case 0: return put_envelope();
    case 1: return put_page();
    case 2: return put_read(request, 0x52, 1);
    case 3: memcpy(request, "\x4D\x04\x91\x06t00007\xC4\x00\x01\x00\x07\x00\x00\x00", 18); return 18;
    default: memcpy(request, "\x4E\x04\x91\x06t00007\x04\x00\x01\x00\x00\x00\x0F\x00\x00\x00", 20); return 20;
  }
}

static void do_message(void) { result = ciplink_t_message(&t, request, put_request(), 65535, reply, sizeof reply); }

static void do_answer(void) { result = ciplink_t_answer(&t, request, put_request(), 65535, reply, sizeof reply); }

static void do_read(void) {
  static uint8_t path[510];
  size_t n = long_path(path);
  result = ciplink_t_read_whole(&t, path, which ? 8 : n, 16, 22, reply, sizeof reply, out, sizeof out);
}

static void do_list(void) {
  static const uint8_t attributes[] = {6, 0, 1, 0, 2, 0, 3, 0, 5, 0, 6, 0, 7, 0};
  static const uint8_t program[] = "Program:p00003";
  result = ciplink_t_list_whole(&t, program, which ? 0 : sizeof program - 1, attributes, sizeof attributes, which == 2 ? 3 : 65535,
                                reply, sizeof reply, out, sizeof out);
}

static void do_nothing(void) {}

static void *run(void *call) {
  (*(void (**)(void))call)();
  return NULL;
}

static size_t used(void (*call)(void)) {
  static uint8_t *stack;
  if (!stack && posix_memalign((void **)&stack, 4096, STACK)) exit(2);
  memset(stack, PAINT, STACK);
  pthread_attr_t attributes;
  pthread_t thread;
  pthread_attr_init(&attributes);
  if (pthread_attr_setstack(&attributes, stack, STACK) || pthread_create(&thread, &attributes, run, &call)) exit(2);
  pthread_join(thread, NULL);
  size_t clean = 0;
  while (clean < STACK && stack[clean] == PAINT) clean++;
  return STACK - clean;
}

static void measure(const char *name, void (*call)(void), int requests) {
  size_t bare = used(do_nothing), most = 0;
  for (int clash = 0; clash < (call == do_answer ? 1 : 4); clash++) {
    ciplink_tag tag = tags[TAGS - 1];
    ciplink_member member = members[MEMBERS - 1];
    if (clash == 1) tags[TAGS - 1].name_start = tags[3].name_start;
    if (clash == 2) tags[TAGS - 1].offset = tags[3].offset;
    if (clash == 3) members[MEMBERS - 1].offset = 30;
    for (int i = 0; i < 2 * requests; i++) {
      which = i / 2, by_members = i % 2;
      size_t n = used(call) - bare;
      if (n > most) most = n;
      if (getenv("SHOW")) printf("  %s %d %d: %zu, 0x%llX\n", name, clash, which, n, (unsigned long long)result);
    }
    tags[TAGS - 1] = tag, members[MEMBERS - 1] = member;
  }
  printf("%-20s %6zu\n", name, most);
}

static void do_join(void) { result = ciplink_join_masks(out, 1024, out + 1024, 1024, out + 2048, 1024, out + 3072, 1024); }

int main(void) {
  fill();
  measure("ciplink_valid", do_valid, 1);
  measure("ciplink_breach", do_breach, 1);
  measure("ciplink_message", do_message, 5);
  measure("ciplink_answer", do_answer, 5);
  measure("ciplink_read_whole", do_read, 2);
  measure("ciplink_list_whole", do_list, 3);
  measure("ciplink_join_masks", do_join, 1);
  return 0;
}
