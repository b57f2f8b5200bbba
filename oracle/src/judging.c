/* Times ciplink_valid of two archives, the judge by pairs and the judge by sorting, and compares them.
 *   judging [RUNS]            a table in Markdown: the medians of RUNS runs (default 41)
 *   judging diff SETS SEED    both judges on SETS random table sets, some of them damaged
 * oracle/judging links it. Exit status 0: no answer differs, 1: some do, 2: it did not run. */
#define _POSIX_C_SOURCE 200809L
#include <stdio.h>
#include <stdlib.h>
#include <string.h>
#include <time.h>

#include "ciplink.h"

/* the archive of the judge by pairs has `by_pairs_` before each of its names */
uint32_t by_pairs_ciplink_valid(CIPLINK_TABLES, const uint8_t *memory, size_t memory_length);

typedef uint32_t judge(CIPLINK_TABLES, const uint8_t *memory, size_t memory_length);

enum { BY_PAIRS, BY_SORTING, JUDGES };
static judge *const judges[JUDGES] = {by_pairs_ciplink_valid, ciplink_valid};

/* ---- the table set that is judged: more rows than T1 allows have room, so that there may be too many */

enum { STRUCTURES = 4, MEMBERS = 2 * STRUCTURES, TEMPLATE = 16 };
enum { MOST_PROGRAMS = 4, MOST_TAGS = 1030, MOST_OTHERS = 65 };

typedef struct {
  uint8_t bytes[65536];
  size_t length;
} store;

static ciplink_structure structures[STRUCTURES];
static ciplink_member members[MEMBERS];
static ciplink_program programs[MOST_PROGRAMS];
static ciplink_tag tags[MOST_TAGS];
static ciplink_other others[MOST_OTHERS];
static size_t program_count, tag_count, other_count;
static store names, tag_names;
static uint8_t templates[STRUCTURES * TEMPLATE];
static uint8_t memory[65536];
static size_t memory_length;

static uint32_t ask(judge *valid) {
  return valid(structures, STRUCTURES, members, MEMBERS, programs, program_count, tags, tag_count, others,
               other_count, names.bytes, names.length, tag_names.bytes, tag_names.length, templates,
               sizeof templates, memory, memory_length);
}

/* ---- random numbers (xorshift): the same seed gives the same run everywhere */

static uint64_t state = 88172645463325252u;

static size_t below(size_t n) {
  state ^= state << 13;
  state ^= state >> 7;
  state ^= state << 17;
  return state % n;
}

/* ---- a valid table set */

/* puts a name behind the others of its store; its start */
static uint32_t put(store *to, const char *name, uint32_t *length) {
  size_t start = to->length, bytes = strlen(name);
  memcpy(to->bytes + start, name, bytes);
  to->length += bytes;
  *length = (uint32_t)bytes;
  return (uint32_t)start;
}

static uint32_t structure_size(size_t i) { return (uint32_t)(8 + 4 * i); }

/* structures of two DINTs and some room each */
static void make_structures(void) {
  char name[32];
  for (size_t i = 0; i < STRUCTURES; i++) {
    ciplink_structure *s = &structures[i];
    *s = (ciplink_structure){.template_id = (uint32_t)(100 + i), .handle = (uint32_t)(0x1000 + i)};
    snprintf(name, sizeof name, "Struct%zu", i);
    s->name_start = put(&names, name, &s->name_length);
    s->size = structure_size(i);
    s->first_member = (uint32_t)(2 * i);
    s->member_count = 2;
    s->template_start = (uint32_t)(TEMPLATE * i);
    s->template_length = TEMPLATE;
  }
  for (size_t i = 0; i < MEMBERS; i++) {
    ciplink_member *m = &members[i];
    *m = (ciplink_member){.type = 0xC4, .offset = (uint32_t)(4 * (i % 2)), .bit = CIPLINK_NO_BIT};
    snprintf(name, sizeof name, "Member%zu", i);
    m->name_start = put(&names, name, &m->name_length);
  }
}

static void make_programs(void) {
  char name[32];
  for (size_t i = 0; i < program_count; i++) {
    snprintf(name, sizeof name, "Cell%02zu", i);
    programs[i].name_start = put(&names, name, &programs[i].name_length);
  }
}

/* each eighth tag is a structure, each sixteenth an array of ten, any other a DINT; the scopes in turn */
static void make_tag(size_t i) {
  static const char *const values[] = {"Speed", "State", "Count", "Alarm"};
  char name[32];
  ciplink_tag *t = &tags[i];
  size_t of = i / 8 % STRUCTURES;
  int is_structure = i % 8 == 7;
  *t = (ciplink_tag){.id = (uint32_t)(1 + i), .type = 0xC4, .elements = 1, .offset = (uint32_t)memory_length};
  snprintf(name, sizeof name, "Station%04zu_%s", i / 4, values[i % 4]);
  t->name_start = put(&tag_names, name, &t->name_length);
  t->scope = (uint32_t)(i * (program_count + 1) / tag_count);
  if (is_structure) t->type = (uint32_t)(CIPLINK_STRUCTURE + of);
  if (i % 16 == 3) t->lengths[0] = t->elements = 10;
  memory_length += t->elements * (is_structure ? structure_size(of) : 4);
}

static void make_other(size_t i) {
  char name[32];
  ciplink_other *o = &others[i];
  *o = (ciplink_other){.id = (uint32_t)(5000 + i), .symbol_type = 0x68};
  snprintf(name, sizeof name, "Routine%02zu_Main", i);
  o->name_start = put(&names, name, &o->name_length);
  o->scope = (uint32_t)(i % (program_count + 1));
}

/* other rows beside each other, other IDs with them, and gaps between the IDs */
static void shuffle(void) {
  for (size_t i = tag_count; i > 1; i--) {
    size_t j = below(i);
    ciplink_tag t = tags[i - 1];
    tags[i - 1] = tags[j];
    tags[j] = t;
  }
  for (size_t i = tag_count; i > 1; i--) {
    size_t j = below(i);
    uint32_t id = tags[i - 1].id;
    tags[i - 1].id = tags[j].id;
    tags[j].id = id;
  }
  for (size_t i = 0; i < tag_count; i++) tags[i].id = tags[i].id * 7919u + 13;
}

static void make(size_t tags_wanted, size_t others_wanted, size_t programs_wanted, int shuffled) {
  tag_count = tags_wanted;
  other_count = others_wanted;
  program_count = programs_wanted;
  names.length = tag_names.length = memory_length = 0;
  make_structures();
  make_programs();
  for (size_t i = 0; i < tag_count; i++) make_tag(i);
  for (size_t i = 0; i < other_count; i++) make_other(i);
  if (shuffled) shuffle();
}

/* ---- what is changed in a set of the table: its names all have one length */

static void name_like(size_t a, size_t b) { tags[a].name_start = tags[b].name_start; }

static void last_ids(void) {
  tags[tag_count - 1].scope = tags[tag_count - 2].scope;
  tags[tag_count - 1].id = tags[tag_count - 2].id;
}

/* the last one becomes a single SINT, so that it lies on no third tag */
static void last_bytes(void) {
  ciplink_tag *t = &tags[tag_count - 1];
  t->type = 0xC2;
  t->lengths[0] = 0;
  t->elements = 1;
  t->offset = tags[tag_count - 2].offset;
}

static void last_names(void) { name_like(tag_count - 1, tag_count - 2); }

static void first_names(void) { name_like(1, 0); }

static void zero_id(void) { tags[0].id = 0; }

/* Two names, found by a search, to which the judge by sorting gives one number (name_key of crates/spread):
 * that leaves it open whether they are the same, so it compares each two after all. */
static void one_number(void) {
  tags[10].name_start = put(&tag_names, "dkbnrhpafoneq", &tags[10].name_length);
  tags[900].name_start = put(&tag_names, "rrwyfitvlitmt", &tags[900].name_length);
}

typedef struct {
  const char *what;
  size_t tags, others, programs;
  int shuffled;
  void (*change)(void);
  uint32_t due;
} row;

static const row rows[] = {
    {"16 tags, in order", 16, 0, 0, 0, NULL, 1},
    {"16 tags, shuffled", 16, 0, 0, 1, NULL, 1},
    {"64 tags, in order", 64, 0, 0, 0, NULL, 1},
    {"64 tags, shuffled", 64, 0, 0, 1, NULL, 1},
    {"256 tags, in order", 256, 0, 0, 0, NULL, 1},
    {"256 tags, shuffled", 256, 0, 0, 1, NULL, 1},
    {"1,024 tags, in order", 1024, 0, 0, 0, NULL, 1},
    {"1,024 tags, shuffled", 1024, 0, 0, 1, NULL, 1},
    {"1,024 tags and 64 other symbols in 5 scopes, in order", 1024, 64, 4, 0, NULL, 1},
    {"1,024 tags and 64 other symbols in 5 scopes, shuffled", 1024, 64, 4, 1, NULL, 1},
    {"these, broken: the last two tags share an ID", 1024, 64, 4, 1, last_ids, 0},
    {"these, broken: the last two tags share a byte", 1024, 64, 4, 1, last_bytes, 0},
    {"these in one scope, broken: the last two tags share a name", 1024, 64, 0, 1, last_names, 0},
    {"these in one scope, broken: the first two tags share a name", 1024, 64, 0, 1, first_names, 0},
    {"these in one scope, broken: a tag has ID 0", 1024, 64, 0, 1, zero_id, 0},
    {"these in one scope, valid: two names of one number", 1024, 64, 0, 1, one_number, 1},
};

/* ---- times */

/* microseconds that this thread has had a processor: what else runs beside it does not count */
static double now(void) {
  struct timespec t;
  clock_gettime(CLOCK_THREAD_CPUTIME_ID, &t);
  return (double)t.tv_sec * 1e6 + (double)t.tv_nsec / 1e3;
}

/* microseconds for each of so many calls */
static double time_of(judge *valid, long calls) {
  double start = now();
  for (long i = 0; i < calls; i++) ask(valid);
  return (now() - start) / (double)calls;
}

/* how many calls take about a millisecond */
static long calls_of(judge *valid) {
  double start = now();
  long calls = 0;
  for (; now() - start < 1000; calls++) ask(valid);
  return calls;
}

static int ascending(const void *a, const void *b) {
  double x = *(const double *)a, y = *(const double *)b;
  return (x > y) - (x < y);
}

static double median(double *times, size_t runs) {
  qsort(times, runs, sizeof *times, ascending);
  return times[runs / 2];
}

/* both judges in turn, so that what else runs slows both */
static void time_both(double *times[JUDGES], size_t runs, double medians[JUDGES]) {
  long calls[JUDGES];
  for (int k = 0; k < JUDGES; k++) calls[k] = calls_of(judges[k]);
  for (size_t i = 0; i < runs; i++) {
    for (int k = 0; k < JUDGES; k++) times[k][i] = time_of(judges[k], calls[k]);
  }
  for (int k = 0; k < JUDGES; k++) medians[k] = median(times[k], runs);
}

/* a row of the table; whether an answer differs from the one that is due */
static int print_row(const row *r, double *times[JUDGES], size_t runs) {
  double medians[JUDGES];
  make(r->tags, r->others, r->programs, r->shuffled);
  if (r->change) r->change();
  uint32_t pairs = ask(judges[BY_PAIRS]), sorting = ask(judges[BY_SORTING]);
  if (pairs != r->due || sorting != r->due) {
    printf("differs: %s: due %u, by pairs %u, by sorting %u\n", r->what, r->due, pairs, sorting);
    return 1;
  }
  time_both(times, runs, medians);
  printf("| %s | %.2f | %.2f | %.2f |\n", r->what, medians[BY_PAIRS], medians[BY_SORTING],
         medians[BY_PAIRS] / medians[BY_SORTING]);
  fflush(stdout);
  return 0;
}

static int print_table(size_t runs) {
  double *times[JUDGES];
  int differ = 0;
  for (int k = 0; k < JUDGES; k++) {
    times[k] = calloc(runs, sizeof(double));
    if (!times[k]) return 2;
  }
  printf("| tables | by pairs, µs | by sorting, µs | by pairs ÷ by sorting |\n|---|---|---|---|\n");
  for (size_t i = 0; i < sizeof rows / sizeof *rows; i++) differ |= print_row(&rows[i], times, runs);
  for (int k = 0; k < JUDGES; k++) free(times[k]);
  return differ;
}

/* ---- random table sets */

/* a tag's name once more, at the end of a store, some letters in the other case; its start */
static uint32_t put_recased(store *to, const ciplink_tag *like) {
  uint32_t start = (uint32_t)to->length;
  for (uint32_t i = 0; i < like->name_length; i++) {
    uint8_t byte = tag_names.bytes[like->name_start + i];
    if (byte >= 'a' && byte <= 'z' && below(2)) byte -= 'a' - 'A';
    to->bytes[to->length++] = byte;
  }
  return start;
}

static void damage_tag(ciplink_tag *a, const ciplink_tag *b) {
  switch (below(6)) {
    case 0:
      a->name_start = b->name_start;
      a->name_length = b->name_length;
      break;
    case 1:
      a->name_start = put_recased(&tag_names, b);
      a->name_length = b->name_length;
      break;
    case 2:
      a->id = b->id;
      break;
    case 3:
      a->offset = b->offset;
      break;
    case 4:
      a->offset += (uint32_t)below(3);
      break;
    case 5:
      a->scope = b->scope;
      break;
  }
}

static void damage_other(ciplink_other *a, const ciplink_other *b, const ciplink_tag *t) {
  switch (below(3)) {
    case 0:
      a->id = t->id;
      if (below(2)) a->scope = t->scope;
      break;
    case 1:
      a->name_start = put_recased(&names, t);
      a->name_length = t->name_length;
      if (below(2)) a->scope = t->scope;
      break;
    case 2:
      a->name_start = b->name_start;
      a->id = b->id;
      break;
  }
}

/* Makes two symbols alike in something, or moves one a little. The set may stay valid: where the scopes
 * differ, or where both are the same symbol. */
static void damage(void) {
  if (tag_count < 2) return;
  ciplink_tag *a = &tags[below(tag_count)], *b = &tags[below(tag_count)];
  if (other_count > 0 && below(3) == 0) {
    ciplink_other *o = &others[below(other_count)], *p = &others[below(other_count)];
    damage_other(o, p, a);
  } else {
    damage_tag(a, b);
  }
}

/* one in four has up to 1,030 tags, any other fewer than 120; none, one or two places are damaged */
static void make_random(void) {
  size_t tags_wanted = below(4) == 0 ? below(MOST_TAGS + 1) : below(120);
  size_t others_wanted = below(MOST_OTHERS + 1), programs_wanted = below(MOST_PROGRAMS + 1);
  make(tags_wanted, others_wanted, programs_wanted, (int)below(2));
  for (size_t n = below(3); n > 0; n--) damage();
}

static int compare(long sets, uint64_t seed) {
  enum { PRINTED = 20 };
  long valid = 0, differ = 0;
  state = seed * 2654435761u + 1;
  for (long n = 1; n <= sets; n++) {
    make_random();
    uint32_t pairs = ask(judges[BY_PAIRS]), sorting = ask(judges[BY_SORTING]);
    valid += pairs == 1;
    if (pairs == sorting) continue;
    if (++differ <= PRINTED) {
      printf("differs: set %ld, %zu tags, %zu other symbols, %zu programs: by pairs %u, by sorting %u\n", n,
             tag_count, other_count, program_count, pairs, sorting);
    }
  }
  printf("%ld table sets: %ld valid, %ld broken; %ld differ\n", sets, valid, sets - valid, differ);
  return differ > 0;
}

/* ---- the arguments */

/* a number above 0, or 0 */
static long number(const char *text) {
  char *end;
  long n = strtol(text, &end, 10);
  return *text && !*end && n > 0 ? n : 0;
}

static int usage(void) {
  fprintf(stderr, "judging [RUNS]\njudging diff SETS SEED\n");
  return 2;
}

int main(int count, char **words) {
  if (count == 4 && strcmp(words[1], "diff") == 0) {
    long sets = number(words[2]), seed = number(words[3]);
    return sets && seed ? compare(sets, (uint64_t)seed) : usage();
  }
  if (count > 2) return usage();
  long runs = count == 2 ? number(words[1]) : 41;
  return runs ? print_table((size_t)runs) : usage();
}
