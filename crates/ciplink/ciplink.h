/* ciplink: the tag services of a simulated Logix controller, proved equal to their definition.
 *
 * Link target/staticlib/libciplink.a, which `examples/build library` writes (x86-64 Linux). The functions keep nothing between
 * two calls, allocate nothing and may run in several threads at once, each on tag memory and a reply buffer of its own.
 *
 * The stack that a call takes, in KiB: the most that oracle/stack measured with the largest tables, and a sixth more, since what
 * is measured is no bound for every input:
 *   ciplink_answer, ciplink_join_masks                                      4
 *   ciplink_valid, ciplink_breach, ciplink_message, ciplink_read_whole     56
 *   ciplink_list_whole (a page that it measures stands on its stack)      128
 *
 * A table passes as a pointer to its rows and their number, a store of bytes as a pointer and its length. No pointer may be
 * NULL, not even one to nothing. Tag memory and the reply buffer overlap nothing else that is passed, nor each other, and
 * nothing changes any of it while a function runs. */
#ifndef CIPLINK_H
#define CIPLINK_H

#include <stddef.h>
#include <stdint.h>

#define CIPLINK_VERSION "1.2.0"
#define CIPLINK_VERSION_NUMBER 0x010200 /* major, minor and patch, a byte each */

#ifdef __cplusplus
extern "C" {
#endif

/* The table set. A name is a part of a store of names: its start and its length in bytes, 1 to 40, each 0x20 to 0x7E; an other
 * symbol's may have 40, or none, behind "Program:", "Routine:" or "Task:", case ignored. A type is an atomic code (0xC1 BOOL,
 * 0xC2 SINT, 0xC3 INT, 0xC4 DINT, 0xC5 LINT, 0xC6 USINT, 0xC7 UINT, 0xC8 UDINT, 0xC9 ULINT, 0xCA REAL, 0xCB LREAL, 0xD1 BYTE,
 * 0xD2 WORD, 0xD3 DWORD, 0xD4 LWORD), or CIPLINK_STRUCTURE plus a structure's row number from 0. A scope is 0 for the
 * controller, k + 1 for the program in row k. A mark is 0 or 1. Access is 0 to 3: 2 is read only, 3 none. Sizes, offsets and
 * starts are in bytes. */
#define CIPLINK_STRUCTURE 0x100u
#define CIPLINK_NO_BIT 8u

typedef struct {         /* at most 64 */
  uint32_t name_start;   /* in names */
  uint32_t name_length;
  uint32_t template_id;  /* 16 bits */
  uint32_t handle;       /* 16 bits */
  uint32_t size;         /* 1 to 65,535 */
  uint32_t first_member; /* the row of the first of its members, which follow one another */
  uint32_t member_count;
  uint32_t aoi;            /* mark: an Add-On Instruction */
  uint32_t template_start; /* in templates */
  uint32_t template_length;
} ciplink_structure;

typedef struct {       /* at most 512 */
  uint32_t name_start; /* in names */
  uint32_t name_length;
  uint32_t type;         /* atomic, or a structure of an earlier row than its own */
  uint32_t array_length; /* 0: not an array */
  uint32_t offset;       /* in the structure */
  uint32_t bit;          /* 0 to 7 of the byte at the offset, or CIPLINK_NO_BIT */
  uint32_t hidden;       /* mark: not found by name */
  uint32_t local;        /* mark: a local of an Add-On Instruction */
  uint32_t access;
} ciplink_member;

typedef struct {       /* at most 16 */
  uint32_t name_start; /* in names; without `Program:` */
  uint32_t name_length;
} ciplink_program;

typedef struct { /* at most 1,024 */
  uint32_t scope;
  uint32_t name_start; /* in tag_names */
  uint32_t name_length;
  uint32_t id; /* the instance ID, not 0 */
  uint32_t type;
  uint32_t lengths[3]; /* of an array, the nonzero ones first; 0, 0, 0: not an array */
  uint32_t elements;   /* their product, 1 if there is none; a DWORD array of 32 k bits may have k */
  uint32_t access;
  uint32_t alias;  /* mark */
  uint32_t offset; /* in tag memory; no two tags share a byte */
} ciplink_tag;

typedef struct { /* a symbol that is no tag: a program, routine or task; at most 64 */
  uint32_t scope;
  uint32_t name_start; /* in names */
  uint32_t name_length;
  uint32_t id;
  uint32_t symbol_type; /* 16 bits */
} ciplink_other;

/* The eight tables, as parameters: rows; the names of structures, members, programs and other symbols; the tags' names;
 * the templates (at most 65,536 bytes). */
#define CIPLINK_TABLES                                                                                    \
  const ciplink_structure *structures, size_t structure_count, const ciplink_member *members,             \
      size_t member_count, const ciplink_program *programs, size_t program_count, const ciplink_tag *tags, \
      size_t tag_count, const ciplink_other *others, size_t other_count, const uint8_t *names,            \
      size_t names_length, const uint8_t *tag_names, size_t tag_names_length, const uint8_t *templates,   \
      size_t templates_length

/* Flags; CIPLINK_MICRO800 turns the first two off. Other bits are ignored. */
#define CIPLINK_MULTI_SERVICE 1u      /* envelopes of several messages are answered */
#define CIPLINK_INSTANCE_IDS 2u       /* tags are found by their instance ID too */
#define CIPLINK_AOI_LOCALS_REFUSED 4u /* locals are not found, and an AOI that has some is neither read nor written whole */
#define CIPLINK_MICRO800 8u

/* An outcome below CIPLINK_REFUSED is the reply's length; else it is one of the refusals, which write nothing. */
#define CIPLINK_REFUSED UINT64_C(0x100000000)
#define CIPLINK_REQUEST_TOO_LONG (CIPLINK_REFUSED + 1) /* the request exceeds 65,535 bytes */
#define CIPLINK_LIMIT_TOO_LARGE (CIPLINK_REFUSED + 2)  /* the limit exceeds 65,535 */
#define CIPLINK_BUFFER_TOO_SHORT (CIPLINK_REFUSED + 3) /* the reply buffer is shorter than max(8, limit) */
#define CIPLINK_TABLES_INVALID (CIPLINK_REFUSED + 4)   /* ciplink_valid says 0; ciplink_breach says which rule and row */

/* 1 if the tables are valid for tag memory of this length, else 0. From 40 tags on they are sorted, so that the time grows
 * little faster than their number. Where two different names have one sort key, each two tags are compared: of a million
 * usual names none had (docs/PERFORMANCE.md), but such names can be made. */
uint32_t ciplink_valid(CIPLINK_TABLES, const uint8_t *memory, size_t memory_length);

/* Where tables break the rules first. The tests stand in a fixed order (docs/RULES.md): the counts, the rows of each table,
 * then rows that clash with each other; of the first test that is broken the first row. A rule's number is 100 times the
 * number of its T, 1 to 11 for the encoding of a row. Rows are counted from 0. Where no two rows clash, other_table is 0. */
#define CIPLINK_STRUCTURES 1u
#define CIPLINK_MEMBERS 2u
#define CIPLINK_PROGRAMS 3u
#define CIPLINK_TAGS 4u
#define CIPLINK_OTHERS 5u
#define CIPLINK_TAG_MEMORY 6u     /* row: the first byte too many */
#define CIPLINK_TEMPLATE_STORE 7u /* likewise */

typedef struct {
  uint64_t rule; /* 0: the tables are valid, and all else is 0 */
  uint64_t table;
  uint64_t row;
  uint64_t other_table;
  uint64_t other; /* a row of other_table; of one table it is the earlier row, of a member it is its structure */
} ciplink_told;

/* Each rule in words. */
#define CIPLINK_RULES(RULE)                                                                      \
  RULE(1, "encoding: its name does not stand in the store of names")                             \
  RULE(2, "encoding: its scope is no program's")                                                 \
  RULE(3, "encoding: its type is neither an atomic code nor a structure in the tables")          \
  RULE(4, "encoding: its template ID exceeds 65535")                                             \
  RULE(5, "encoding: its handle exceeds 65535")                                                  \
  RULE(6, "encoding: its symbol type exceeds 65535")                                             \
  RULE(7, "encoding: its members do not stand in the member table")                              \
  RULE(8, "encoding: its AOI mark is not 0 or 1")                                                \
  RULE(9, "encoding: its hidden mark is not 0 or 1")                                             \
  RULE(10, "encoding: its local mark is not 0 or 1")                                             \
  RULE(11, "encoding: its alias mark is not 0 or 1")                                             \
  RULE(101, "T1: there are more than the controller takes")                                      \
  RULE(102, "T1: its access is not 0 to 3")                                                      \
  RULE(201, "T2: its name has no bytes, or more than 40 (an other symbol's without its prefix)") \
  RULE(202, "T2: its name has a byte below 0x20 or above 0x7E")                                  \
  RULE(203, "T2: the same name, case ignored, as another program, or symbol of its scope")       \
  RULE(301, "T3: its ID is 0")                                                                   \
  RULE(302, "T3: the same ID as another row in the same scope")                                  \
  RULE(401, "T4: it has no or more than 65535 bytes")                                            \
  RULE(402, "T4: its template does not stand in the template store")                             \
  RULE(403, "T4: its bit is not 0 to 7, or 8 for none")                                          \
  RULE(404, "T4: its type is neither atomic nor of an earlier structure than its own")           \
  RULE(405, "T4: it does not end inside its structure")                                          \
  RULE(501, "T5: its type is neither an atomic code nor a structure in the tables")              \
  RULE(502, "T5: a length of 0 has a length behind it")                                          \
  RULE(503, "T5: its elements are not the product of its lengths")                               \
  RULE(601, "T6: its bytes do not end in tag memory")                                            \
  RULE(602, "T6: it shares a byte with another row")

static inline const char *ciplink_rule_text(uint64_t rule) {
  switch (rule) {
#define CIPLINK_RULE_CASE(number, text) \
  case number:                          \
    return text;
    CIPLINK_RULES(CIPLINK_RULE_CASE)
#undef CIPLINK_RULE_CASE
  default:
    return "the tables are valid";
  }
}

/* The rule that the tables break first, 0 where they are valid for tag memory of this length; `told` says where, whatever it
 * held before. Valid tables are judged as quickly as by ciplink_valid; where two of many rows clash, each two are compared. */
uint64_t ciplink_breach(CIPLINK_TABLES, const uint8_t *memory, size_t memory_length, ciplink_told *told);

/* Answers a CIP message with a reply that the limit cuts; writes go to tag memory (at most 65,536 bytes). Judges all of its
 * arguments anew: it answers or refuses whatever is passed. Afterwards the reply buffer has the reply, zeros from its end up
 * to position max(8, limit), and behind that the bytes that it had. A reply exceeds the limit only where that is below 8:
 * the status and a type header are always sent. */
uint64_t ciplink_message(CIPLINK_TABLES, uint32_t flags, uint8_t *memory, size_t memory_length, const uint8_t *request,
                         size_t request_length, size_t limit, uint8_t *reply, size_t reply_length);

/* The same without judging: for a program that asks ciplink_valid once and keeps its tables. The reply's length. What
 * ciplink_message would refuse must not be passed: nothing is proved of what happens then. */
uint64_t ciplink_answer(CIPLINK_TABLES, uint32_t flags, uint8_t *memory, size_t memory_length, const uint8_t *request,
                        size_t request_length, size_t limit, uint8_t *reply, size_t reply_length);

/* What a whole read or a whole list comes to: below CIPLINK_REFUSED the number of bytes joined, else why nothing was. */
#define CIPLINK_TURNED UINT64_C(0x200000000)     /* plus the status of the reply that turns the first request away: bits 0 to 7 the
                                                    general one, bits 8 to 23 the extended word, 0 where there is none */
#define CIPLINK_TOO_SHORT UINT64_C(0x300000000)  /* plus the number of bytes that `out` has to hold */
#define CIPLINK_TOO_NARROW UINT64_C(0x400000000) /* the limit is below 5 plus the type header (2 bytes, 4 for a structure); of a
                                                    list, below 4 plus the longest entry */
#define CIPLINK_UNSENDABLE UINT64_C(0x500000000) /* the path has an odd number of bytes, or more than 510; the program's name
                                                    more than 255 bytes, or the attributes more than 1,024 */

/* Of an outcome from CIPLINK_TURNED on and below CIPLINK_TOO_SHORT. */
static inline uint8_t ciplink_general_status(uint64_t turned) { return (uint8_t)turned; }
static inline uint16_t ciplink_extended_word(uint64_t turned) { return (uint16_t)(turned >> 8); }

/* A continued read done whole: sends reads of `elements` elements (0x52) of a path, each at the number of bytes received, and
 * joins their data in `out` until status 0: the joined bytes are the selected ones. Tag memory stays as it is. Judges all of its
 * arguments anew. Of several reasons why nothing is joined the first one is told, in this order: a path that no request carries
 * (CIPLINK_UNSENDABLE), the limit (CIPLINK_LIMIT_TOO_LARGE), the reply buffer (CIPLINK_BUFFER_TOO_SHORT), the tables
 * (CIPLINK_TABLES_INVALID), a read that is turned away (CIPLINK_TURNED), no room behind the type header (CIPLINK_TOO_NARROW),
 * no room in `out` (CIPLINK_TOO_SHORT). Where nothing was joined, `out` is as it was. Where bytes were joined or the read was
 * turned away, `reply` has the last reply afterwards, as ciplink_message leaves it: zeros from the reply's end up to position
 * max(8, limit), and behind that the bytes that it had. In all other outcomes nothing was sent, and `reply` is as it was. `out`
 * overlaps nothing else that is passed. */
uint64_t ciplink_read_whole(CIPLINK_TABLES, uint32_t flags, uint8_t *memory, size_t memory_length, const uint8_t *path,
                            size_t path_length, uint16_t elements, size_t limit, uint8_t *reply, size_t reply_length,
                            uint8_t *out, size_t out_length);

/* The symbols of a scope listed whole: asks for pages (0x55), each from the last listed ID plus one, and joins their entries in
 * `out` until status 0: those of all symbols of the scope, ascending by ID. `program` is a program's symbol name (`Program:Main`),
 * or empty for the controller's scope. `attributes` is the request's data: a count of 16 bits, and as many numbers of attributes.
 * Tag memory stays as it is. Judges all of its arguments anew, in the order of ciplink_read_whole: CIPLINK_UNSENDABLE, the limit,
 * the reply buffer, the tables, a page that is turned away, a limit that is too narrow, `out` too short. What `out` and `reply`
 * hold afterwards is as there. */
uint64_t ciplink_list_whole(CIPLINK_TABLES, uint32_t flags, uint8_t *memory, size_t memory_length, const uint8_t *program,
                            size_t program_length, const uint8_t *attributes, size_t attributes_length, size_t limit,
                            uint8_t *reply, size_t reply_length, uint8_t *out, size_t out_length);

/* Masked writes (0x4E) in a row, joined into one. `ors` and `ands` are the masks of the first, `next_ors` and `next_ands` those of
 * the next one to the same target, as the requests carry them. Afterwards `ors` and `ands` are the masks of a single masked write
 * that leaves what the two leave, for every tag memory: OR masks (ors | next_ors), AND masks ((ands | next_ors) & next_ands).
 * Returns 1; or 0 where the four lengths are not equal, and nothing is written then. A row is joined from its first click on, one
 * click at a call.
 *
 * One target is the same first byte of tag memory and the same size, by whatever path: by name or by instance ID, `Rows` or
 * `Rows[0]`, in any case. The single one is accepted where the two are. Nothing between the two may change tag memory or the
 * tables; a read that stood between them may see other bytes than before. Zeros with all ones (OR 00.., AND FF..) change nothing,
 * and joined with another pair, before it or behind it, they give that pair. `ors` and `ands` overlap nothing else that is passed,
 * nor each other. */
uint32_t ciplink_join_masks(uint8_t *ors, size_t ors_length, uint8_t *ands, size_t ands_length, const uint8_t *next_ors,
                            size_t next_ors_length, const uint8_t *next_ands, size_t next_ands_length);

/* ---- one pointer for all tables
 *
 * A host that keeps its tables in one place passes a pointer to this. The wrappers call the functions above, whose promises and
 * demands are theirs too: no pointer in it is NULL, not even one to nothing. */
typedef struct {
  const ciplink_structure *structures;
  size_t structure_count;
  const ciplink_member *members;
  size_t member_count;
  const ciplink_program *programs;
  size_t program_count;
  const ciplink_tag *tags;
  size_t tag_count;
  const ciplink_other *others;
  size_t other_count;
  const uint8_t *names;
  size_t names_length;
  const uint8_t *tag_names;
  size_t tag_names_length;
  const uint8_t *templates;
  size_t templates_length;
  uint32_t flags;
  uint8_t *memory;
  size_t memory_length;
} ciplink_tables;

#define CIPLINK_TABLES_OF(t)                                                                                              \
  (t)->structures, (t)->structure_count, (t)->members, (t)->member_count, (t)->programs, (t)->program_count, (t)->tags,   \
      (t)->tag_count, (t)->others, (t)->other_count, (t)->names, (t)->names_length, (t)->tag_names, (t)->tag_names_length, \
      (t)->templates, (t)->templates_length

static inline uint32_t ciplink_t_valid(const ciplink_tables *t) {
  return ciplink_valid(CIPLINK_TABLES_OF(t), t->memory, t->memory_length);
}

static inline uint64_t ciplink_t_breach(const ciplink_tables *t, ciplink_told *told) {
  return ciplink_breach(CIPLINK_TABLES_OF(t), t->memory, t->memory_length, told);
}

static inline uint64_t ciplink_t_message(const ciplink_tables *t, const uint8_t *request, size_t request_length, size_t limit,
                                         uint8_t *reply, size_t reply_length) {
  return ciplink_message(CIPLINK_TABLES_OF(t), t->flags, t->memory, t->memory_length, request, request_length, limit, reply,
                         reply_length);
}

static inline uint64_t ciplink_t_answer(const ciplink_tables *t, const uint8_t *request, size_t request_length, size_t limit,
                                        uint8_t *reply, size_t reply_length) {
  return ciplink_answer(CIPLINK_TABLES_OF(t), t->flags, t->memory, t->memory_length, request, request_length, limit, reply,
                        reply_length);
}

static inline uint64_t ciplink_t_read_whole(const ciplink_tables *t, const uint8_t *path, size_t path_length, uint16_t elements,
                                            size_t limit, uint8_t *reply, size_t reply_length, uint8_t *out, size_t out_length) {
  return ciplink_read_whole(CIPLINK_TABLES_OF(t), t->flags, t->memory, t->memory_length, path, path_length, elements, limit,
                            reply, reply_length, out, out_length);
}

static inline uint64_t ciplink_t_list_whole(const ciplink_tables *t, const uint8_t *program, size_t program_length,
                                            const uint8_t *attributes, size_t attributes_length, size_t limit, uint8_t *reply,
                                            size_t reply_length, uint8_t *out, size_t out_length) {
  return ciplink_list_whole(CIPLINK_TABLES_OF(t), t->flags, t->memory, t->memory_length, program, program_length, attributes,
                            attributes_length, limit, reply, reply_length, out, out_length);
}

#ifdef __cplusplus
}
#endif

#endif
