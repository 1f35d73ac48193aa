// verifier SPEC BIN: a plain and fast verifier for the same profile of Metamath Zero
// as `mz`, unproved, written from the rules. It answers yes (status 0) or no
// (status 1) and doesn't care which rule fails first.
//
// One pass: each public statement of the binary is checked, then the next
// declaration of the specification is read and run against the statement's
// unify stream. Both files are mapped; nothing of them is copied.
//
// verifier -s SPEC: reads a specification alone.
//
// Expressions are hash-consed in an arena that is emptied at each statement, so
// trees are equal exactly where their numbers are.
#define _GNU_SOURCE
#include <fcntl.h>
#include <stdint.h>
#include <stdio.h>
#include <stdlib.h>
#include <string.h>
#include <sys/mman.h>
#include <sys/stat.h>
#include <unistd.h>

typedef uint8_t u8;
typedef uint16_t u16;
typedef uint32_t u32;
typedef uint64_t u64;
#define LIKELY(x) __builtin_expect(!!(x), 1)
#define UNLIKELY(x) __builtin_expect(!!(x), 0)
#define NONE 0xFFFFFFFFu

static _Noreturn __attribute__((cold, noinline)) void refuse(const char *why) {
  printf("refused: %s\n", why);
  exit(1);
}
static _Noreturn __attribute__((cold, noinline)) void give_up(int status, const char *why) {
  fprintf(stderr, "%s\n", why);
  exit(status);
}
#define REQUIRE(c, why)             \
  do {                              \
    if (UNLIKELY(!(c))) refuse(why); \
  } while (0)

// Address space, given pages only as they are touched.
static void *reserve(u64 bytes) {
  void *p = mmap(0, bytes ? bytes : 1, PROT_READ | PROT_WRITE,
                 MAP_PRIVATE | MAP_ANONYMOUS | MAP_NORESERVE, -1, 0);
  if (p == MAP_FAILED) give_up(4, "Memory");
  return p;
}

typedef struct {
  const u8 *at;
  u64 len;
} File;

static File map_file(const char *name) {
  File f;
  struct stat st;
  int fd = open(name, O_RDONLY);
  if (fd < 0 || fstat(fd, &st) < 0) give_up(3, "ReadFault");
  f.len = st.st_size;
  if (f.len > 0xFFFFFFFFu) give_up(7, "TooLong");
  f.at = (const u8 *)"";
  if (f.len) {
    f.at = mmap(0, f.len, PROT_READ, MAP_PRIVATE, fd, 0);
    if (f.at == MAP_FAILED) give_up(3, "ReadFault");
  }
  close(fd);
  return f;
}

// ------------------------------------------------------------------ the store

// A number of an expression is its place in the arena, in units of 8 bytes.
typedef struct {
  u64 deps;    // variables (V, or FV in definitions and in the specification)
  u32 head;    // a term, or VAR and a place
  u32 sortb;   // the sort and BOUND of the store's kind
  u32 hash;
  u16 nargs;
  u16 height;  // the specification's
  u32 args[];
} Node;
#define VAR 0x80000000u
#define MAX_ID (1u << 30)

typedef struct {
  u64 *base;
  u32 used;
  u32 count;
  u64 *table;  // epoch << 32 | number
  u32 mask;    // of the part in use
  u32 room;    // of the whole table
  u32 epoch;
} Store;

#define NODE(st, id) ((Node *)((st)->base + (id)))
static inline u32 units(u32 nargs) { return 3 + (nargs + 1) / 2; }

static void store_new(Store *s) {
  s->base = reserve((u64)MAX_ID * 8);
  s->room = 1024;
  s->table = calloc(s->room, 8);
  s->epoch = 0;
}

static inline void store_epoch(Store *s) {
  if (UNLIKELY(++s->epoch == 0)) {
    memset(s->table, 0, (u64)s->room * 8);
    s->epoch = 1;
  }
}

static inline void store_begin(Store *s) {
  s->used = s->count = 0;
  s->mask = 255;
  store_epoch(s);
}

static inline Node *store_tip(Store *s, u32 nargs) {
  if (UNLIKELY(s->used + units(nargs) >= MAX_ID)) give_up(4, "Memory");
  return NODE(s, s->used);
}

static inline u32 store_var(Store *s, u32 i, u32 sortb, u64 deps) {
  Node *n = store_tip(s, 0);
  n->deps = deps;
  n->head = VAR | i;
  n->sortb = sortb;
  n->nargs = 0;
  n->height = 1;
  u32 id = s->used;
  s->used += units(0);
  return id;
}

static __attribute__((noinline)) void store_grow(Store *s) {
  u32 size = (s->mask + 1) * 2;
  if (size > s->room) {
    free(s->table);
    s->room = size;
    s->table = calloc(size, 8);
    if (!s->table) give_up(4, "Memory");
    s->epoch = 0;
  }
  s->mask = size - 1;
  store_epoch(s);
  for (u32 at = 0; at < s->used;) {
    Node *n = NODE(s, at);
    if (!(n->head & VAR)) {
      u32 i = n->hash & s->mask;
      while (s->table[i] >> 32 == s->epoch) i = (i + 1) & s->mask;
      s->table[i] = (u64)s->epoch << 32 | at;
    }
    at += units(n->nargs);
  }
}

#define HASH_K 0x9E3779B97F4A7C15ull
#define HASH_START(head, n) (((u64)(head) << 17 ^ (n)) * HASH_K)
#define HASH_STEP(h, a) ((((h) << 23 | (h) >> 41) ^ (a)) * HASH_K)

// The node at the tip has head, nargs and args; hash h. Fresh says whether it
// is new: then the caller fills in the rest.
static inline u32 store_enter(Store *s, Node *n, u64 h64, int *fresh) {
  u32 h = (u32)(h64 >> 32), i = h & s->mask;
  u64 e;
  while ((e = s->table[i]) >> 32 == s->epoch) {
    Node *o = NODE(s, (u32)e);
    if (o->hash == h && o->head == n->head && o->nargs == n->nargs &&
        memcmp(o->args, n->args, 4 * (u64)n->nargs) == 0) {
      *fresh = 0;
      return (u32)e;
    }
    i = (i + 1) & s->mask;
  }
  u32 id = s->used;
  n->hash = h;
  s->table[i] = (u64)s->epoch << 32 | id;
  s->used += units(n->nargs);
  *fresh = 1;
  if (UNLIKELY(++s->count * 2 > s->mask)) store_grow(s);
  return id;
}

// -------------------------------------------------------------------- commands

enum {
  END = 0, AXIOM = 2, SORT = 4, TERM_STMT = 5, THEOREM = 6, LOCAL_DEF = 0xD, LOCAL_THEOREM = 0xE,
  TERM = 0x10, TERM_SAVE, REF, DUMMY, THM, THM_SAVE, HYP, CONV, REFL, SYMM, CONG, UNFOLD,
  CONV_CUT, CONV_REF, CONV_SAVE, SAVE, SORRY,
  U_TERM = 0x30, U_TERM_SAVE, U_REF, U_DUMMY, U_HYP = 0x36
};

static inline u32 ld16(const u8 *p) { u16 v; memcpy(&v, p, 2); return v; }
static inline u32 ld32(const u8 *p) { u32 v; memcpy(&v, p, 4); return v; }
static inline u64 ld64(const u8 *p) { u64 v; memcpy(&v, p, 8); return v; }

#define DECODE(p, end, code, value)                                      \
  do {                                                                   \
    REQUIRE(p < end, "command");                                         \
    u32 b_ = *p;                                                         \
    code = b_ & 0x3F;                                                    \
    switch (b_ >> 6) {                                                   \
      case 0: value = 0; p += 1; break;                                  \
      case 1: REQUIRE(end - p >= 2, "command"); value = p[1]; p += 2; break;        \
      case 2: REQUIRE(end - p >= 3, "command"); value = ld16(p + 1); p += 3; break; \
      default: REQUIRE(end - p >= 5, "command"); value = ld32(p + 1); p += 5;       \
    }                                                                    \
  } while (0)

// ---------------------------------------------------------------------- binary

static const u8 *bin, *bin_end;
static u32 n_sorts, n_terms, n_thms;           // of the file
static u32 at_sort, at_term, at_thm;           // declared so far
static const u8 *terms, *thms;                 // the tables
static Store S;

// Items: a number with a kind in its bits 30 and 31, a second one above.
typedef u64 Item;
#define PROOF (1u << 30)
#define OBLIGATION (2u << 30)
#define CONVERSION (3u << 30)
#define KIND(x) ((u32)(x) & (3u << 30))
#define FIRST(x) ((u32)(x) & ~(3u << 30))
#define SECOND(x) ((u32)((x) >> 32))
#define PAIR(kind, a, b) ((u64)(b) << 32 | (kind) | (a))

static Item *stack, *sp, *stack_room, *heap;
static u32 n_heap;
static u32 *hyps, n_hyps;
static u32 *uheap, *targets, *targets_room;
static u32 n_bound;

static inline u32 mods_of(u32 s) { return bin[40 + s] & 15; }
enum { PURE = 1, STRICT = 2, PROVABLE = 4, FREE = 8 };

static void read_header(File f) {
  bin = f.at;
  bin_end = bin + f.len;
  REQUIRE(f.len >= 40 && memcmp(bin, "MM0B\1", 5) == 0, "header");
  n_sorts = bin[5];
  REQUIRE(n_sorts <= 128 && 40 + n_sorts <= f.len, "header");
  n_terms = ld32(bin + 8);
  n_thms = ld32(bin + 12);
  u64 p_terms = ld32(bin + 16), p_thms = ld32(bin + 20), p_proof = ld32(bin + 24);
  REQUIRE(!n_terms || p_terms + 8 * (u64)n_terms <= f.len, "table");
  REQUIRE(!n_thms || p_thms + 8 * (u64)n_thms <= f.len, "table");
  REQUIRE(p_proof <= f.len, "table");
  terms = bin + p_terms;
  thms = bin + p_thms;
  for (u32 i = 0; i < n_terms; i++)
    REQUIRE(ld32(terms + 8 * (u64)i + 4) + 8 * ((u64)ld16(terms + 8 * (u64)i) + 1) <= f.len, "table");
  for (u32 i = 0; i < n_thms; i++)
    REQUIRE(ld32(thms + 8 * (u64)i + 4) + 8 * (u64)ld16(thms + 8 * (u64)i) <= f.len, "table");
  u64 room = 2 * f.len + (1 << 18);
  stack = reserve(8 * room);
  stack_room = stack + room - (1 << 17);
  heap = reserve(8 * room);
  hyps = reserve(4 * room);
  uheap = reserve(4 * room);
  targets = reserve(4 * room);
  targets_room = targets + room - (1 << 17);
  store_new(&S);
}

enum { USE, FINAL, BODY };

// The unify machine over a row's stream; the operands are uheap's first nops.
static inline __attribute__((always_inline)) void unify(const u8 *p, const int mode, u32 nops, u32 target) {
  u32 *tp = targets, n = nops;
  const u8 *end = bin_end;
  u64 taken = 0;
  int taken_known = 0;
  *tp++ = target;
  for (;;) {
    u32 code, value;
    DECODE(p, end, code, value);
    switch (code) {
      case U_TERM_SAVE:
      case U_TERM: {
        REQUIRE(tp > targets, "unify rest");
        u32 e = *--tp;
        Node *x = NODE(&S, e);
        REQUIRE(x->head == value && !(value & VAR), "unify term");
        for (u32 i = x->nargs; i > 0;) *tp++ = x->args[--i];
        if (UNLIKELY(tp > targets_room)) give_up(4, "Memory");
        if (code == U_TERM_SAVE) uheap[n++] = e;
        break;
      }
      case U_REF: {
        REQUIRE(tp > targets, "unify rest");
        u32 e = *--tp;
        REQUIRE(value < n && uheap[value] == e, "unify reference");
        break;
      }
      case U_DUMMY: {
        REQUIRE(mode == BODY, "command");
        REQUIRE(tp > targets, "unify rest");
        u32 e = *--tp;
        Node *x = NODE(&S, e);
        if (!taken_known) {
          for (u32 i = 0; i < nops; i++) taken |= NODE(&S, uheap[i])->deps;
          taken_known = 1;
        }
        REQUIRE(x->sortb == (value | 0x80) && value < 0x80 && !(x->deps & taken), "unify dummy");
        taken |= x->deps;
        uheap[n++] = e;
        break;
      }
      case U_HYP:
        REQUIRE(mode != BODY, "command");
        REQUIRE(tp == targets, "unify rest");
        if (mode == USE) {
          REQUIRE(sp > stack, "underflow");
          Item x = *--sp;
          REQUIRE(KIND(x) == PROOF, "kind");
          *tp++ = FIRST(x);
        } else {
          REQUIRE(n_hyps > 0, "unify hypothesis");
          *tp++ = hyps[--n_hyps];
        }
        break;
      case END:
        REQUIRE(tp == targets && (mode != FINAL || n_hyps == 0), "unify rest");
        return;
      default:
        refuse("command");
    }
  }
}

// FV of an application at the tip, for definitions.
static __attribute__((noinline)) u64 free_of(Store *s, const Node *n, const u8 *words) {
  u64 bound[64];
  u32 k = 0;
  u64 all = 0;
  for (u32 i = 0; i <= n->nargs; i++) {
    u64 w = ld64(words + 8 * (u64)i);
    if (i < n->nargs && w >> 63) {
      bound[k++] = NODE(s, n->args[i])->deps;
      continue;
    }
    u64 set = 0;
    for (u64 d = w & ((1ull << 56) - 1); d; d &= d - 1) set |= bound[__builtin_ctzll(d)];
    if (i < n->nargs) all |= NODE(s, n->args[i])->deps & ~set;
    else all |= set;
  }
  return all;
}

static inline __attribute__((always_inline)) void need(u32 n) {
  REQUIRE((u64)(sp - stack) >= n, "underflow");
}

static inline __attribute__((always_inline)) u32 do_term(u32 t, int kind) {
  REQUIRE(t < at_term, "term index");
  const u8 *rec = terms + 8 * (u64)t, *w = bin + ld32(rec + 4);
  u32 n = ld16(rec);
  need(n);
  Item *es = sp - n;
  Node *nd = store_tip(&S, n);
  u64 h = HASH_START(t, n), deps = 0;
  for (u32 i = 0; i < n; i++) {
    Item e = es[i];
    REQUIRE(KIND(e) == 0, "kind");
    Node *x = NODE(&S, (u32)e);
    u32 want = w[8 * i + 7];
    REQUIRE(x->sortb == want || (x->sortb & 0x7F) == want, "operand");
    deps |= x->deps;
    nd->args[i] = (u32)e;
    h = HASH_STEP(h, (u32)e);
  }
  nd->head = t;
  nd->nargs = n;
  int fresh;
  u32 id = store_enter(&S, nd, h, &fresh);
  if (fresh) {
    nd->sortb = rec[2] & 0x7F;
    nd->deps = kind == TERM_STMT ? free_of(&S, nd, w) : deps;
  }
  sp = es;
  return id;
}

static inline __attribute__((always_inline)) u32 do_thm(u32 t) {
  REQUIRE(t < at_thm, "theorem index");
  const u8 *rec = thms + 8 * (u64)t, *w = bin + ld32(rec + 4);
  u32 n = ld16(rec);
  need(n + 1);
  u32 target = (u32)sp[-1];
  REQUIRE(KIND(sp[-1]) == 0, "kind");
  Item *es = sp - 1 - n;
  u64 bound[64], total = 0;
  u32 k = 0;
  for (u32 i = 0; i < n; i++) {
    Item e = es[i];
    REQUIRE(KIND(e) == 0, "kind");
    Node *x = NODE(&S, (u32)e);
    u32 want = w[8 * i + 7];
    REQUIRE(x->sortb == want || (x->sortb & 0x7F) == want, "operand");
    if (want >> 7) {
      REQUIRE(!(total & x->deps), "disjoint");
      total |= bound[k++] = x->deps;
    }
    uheap[i] = (u32)e;
  }
  if (total) {
    for (u32 i = 0; i < n; i++) {
      u64 word = ld64(w + 8 * (u64)i);
      if (word >> 63) continue;
      u64 bad = NODE(&S, uheap[i])->deps & total;
      if (!bad) continue;
      for (u64 d = word & ((1ull << 56) - 1); d; d &= d - 1) bad &= ~bound[__builtin_ctzll(d)];
      REQUIRE(!bad, "disjoint");
    }
  }
  sp = es;
  unify(w + 8 * (u64)n, USE, n, target);
  return target;
}

static void run_body(const u8 *p, const u8 *end, int kind, u32 row) {
  const u8 *rec = (kind == TERM_STMT ? terms : thms) + 8 * (u64)row;
  const u8 *words = bin + ld32(rec + 4);
  u32 n = ld16(rec);
  store_begin(&S);
  sp = stack;
  n_heap = n_hyps = n_bound = 0;
  for (u32 i = 0; i < n; i++) {
    u64 w = ld64(words + 8 * (u64)i);
    n_bound += w >> 63;
    heap[n_heap++] = store_var(&S, i, w >> 56, w & ((1ull << 56) - 1));
  }
  const int theorem = kind == THEOREM;
  for (;;) {
    u32 code, value;
    DECODE(p, end, code, value);
    switch (code) {
      case TERM: { u32 e = do_term(value, kind); *sp++ = e; break; }
      case TERM_SAVE: { u32 e = do_term(value, kind); *sp++ = heap[n_heap++] = e; break; }
      case CONV_REF:
        REQUIRE(theorem, "command");
        REQUIRE(value < n_heap, "heap index");
        REQUIRE(KIND(heap[value]) == CONVERSION, "kind");
        // falls through
      case REF: {
        REQUIRE(value < n_heap, "heap index");
        Item x = heap[value];
        if (LIKELY(KIND(x) != CONVERSION)) {
          *sp++ = x;
        } else {
          need(1);
          REQUIRE(*--sp == PAIR(OBLIGATION, FIRST(x), SECOND(x)), "conversion reference");
        }
        break;
      }
      case DUMMY: {
        REQUIRE(value < at_sort && !(mods_of(value) & (STRICT | FREE)), "dummy sort");
        REQUIRE(n_bound < 55, "dummy count");
        u32 id = store_var(&S, n + n_heap, value | 0x80, 1ull << n_bound++);
        *sp++ = heap[n_heap++] = id;
        break;
      }
      case SAVE:
        need(1);
        REQUIRE(KIND(sp[-1]) != OBLIGATION, "save kind");
        heap[n_heap++] = sp[-1];
        break;
      case HYP: {
        REQUIRE(kind != TERM_STMT, "command");
        need(1);
        Item e = *--sp;
        REQUIRE(KIND(e) == 0, "kind");
        REQUIRE(mods_of(NODE(&S, (u32)e)->sortb & 0x7F) & PROVABLE, "not provable");
        hyps[n_hyps++] = (u32)e;
        heap[n_heap++] = PROOF | (u32)e;
        break;
      }
      case THM:
        REQUIRE(theorem, "command");
        { u32 id = do_thm(value); *sp++ = PROOF | id; }
        break;
      case THM_SAVE:
        REQUIRE(theorem, "command");
        { u32 id = do_thm(value); *sp++ = heap[n_heap++] = PROOF | id; }
        break;
      case CONV: {
        REQUIRE(theorem, "command");
        need(2);
        Item d = sp[-1], e = sp[-2];
        REQUIRE(KIND(d) == PROOF && KIND(e) == 0, "kind");
        sp[-2] = PROOF | (u32)e;
        sp[-1] = PAIR(OBLIGATION, (u32)e, FIRST(d));
        break;
      }
      case REFL: {
        REQUIRE(theorem, "command");
        need(1);
        Item o = *--sp;
        REQUIRE(KIND(o) == OBLIGATION && FIRST(o) == SECOND(o), "refl");
        break;
      }
      case SYMM: {
        REQUIRE(theorem, "command");
        need(1);
        Item o = sp[-1];
        REQUIRE(KIND(o) == OBLIGATION, "kind");
        sp[-1] = PAIR(OBLIGATION, SECOND(o), FIRST(o));
        break;
      }
      case CONG: {
        REQUIRE(theorem, "command");
        need(1);
        Item o = *--sp;
        REQUIRE(KIND(o) == OBLIGATION, "kind");
        Node *a = NODE(&S, FIRST(o)), *b = NODE(&S, SECOND(o));
        REQUIRE(a->head == b->head && !(a->head & VAR), "cong");
        for (u32 i = a->nargs; i > 0;) {
          i--;
          *sp++ = PAIR(OBLIGATION, a->args[i], b->args[i]);
        }
        if (UNLIKELY(sp > stack_room)) give_up(4, "Memory");
        break;
      }
      case UNFOLD: {
        REQUIRE(theorem, "command");
        need(2);
        Item e = *--sp, x = *--sp;
        REQUIRE(KIND(e) == 0, "kind");
        u32 middle = NONE;
        if (KIND(x) == 0) {
          middle = (u32)x;
          need(1);
          x = *--sp;
        }
        REQUIRE(KIND(x) == OBLIGATION, "kind");
        u32 left = FIRST(x);
        REQUIRE(middle == NONE || middle == left, "unfold");
        Node *l = NODE(&S, left);
        REQUIRE(!(l->head & VAR), "unfold");
        const u8 *r = terms + 8 * (u64)l->head;
        REQUIRE(r[2] >> 7, "unfold");
        memcpy(uheap, l->args, 4 * (u64)l->nargs);
        unify(bin + ld32(r + 4) + 8 * ((u64)l->nargs + 1), BODY, l->nargs, (u32)e);
        *sp++ = PAIR(OBLIGATION, (u32)e, SECOND(x));
        break;
      }
      case CONV_CUT: {
        REQUIRE(theorem, "command");
        need(1);
        Item o = sp[-1];
        REQUIRE(KIND(o) == OBLIGATION, "kind");
        sp[-1] = PAIR(CONVERSION, FIRST(o), SECOND(o));
        *sp++ = o;
        break;
      }
      case CONV_SAVE:
        REQUIRE(theorem, "command");
        need(1);
        REQUIRE(KIND(sp[-1]) == CONVERSION, "kind");
        heap[n_heap++] = *--sp;
        break;
      case END: {
        REQUIRE(p == end, "statement length");
        REQUIRE(sp == stack + 1, "final stack");
        u32 e = FIRST(stack[0]);
        REQUIRE(KIND(stack[0]) == (theorem ? PROOF : 0), "final stack");
        for (u32 i = 0; i < n; i++) uheap[i] = (u32)heap[i];
        if (kind == TERM_STMT) {
          u64 w = ld64(words + 8 * (u64)n);
          REQUIRE((NODE(&S, e)->sortb & 0x7F) == w >> 56, "definition sort");
          REQUIRE(!(NODE(&S, e)->deps & ~w & ((1ull << 56) - 1)), "definition dependencies");
          unify(words + 8 * ((u64)n + 1), BODY, n, e);
        } else {
          REQUIRE(theorem || (mods_of(NODE(&S, e)->sortb & 0x7F) & PROVABLE), "not provable");
          unify(words + 8 * (u64)n, FINAL, n, e);
        }
        return;
      }
      default:
        refuse("command");
    }
  }
}

// --------------------------------------------------------------- specification

static const u8 *text, *text_at, *text_end;

// Whatever has a name or stands in a formula: one table for all of it.
typedef struct {
  const u8 *s;
  u32 len, hash;
  u32 sort, term, note;   // NONE where it isn't one
  u32 var, stamp;         // the statement's variable where stamp is this one's
  u32 thm;
} Sym;
typedef struct {
  u64 level;
  u32 leading, infix;     // forms
} Note;
typedef struct {
  u64 deps;
  u32 sort, bound;
} Binder;
typedef struct {
  u64 params;
  u32 n;
  u32 sort;
  u64 deps;
  u32 is_def;
  u32 row;                // the binary's
} SpecTerm;
typedef struct {
  u64 level;              // a constant's, or that of the expression
  u32 sym, place;         // sym NONE: an operand
} Lit;
typedef struct {
  u64 level;
  u64 lits;
  u32 n, term, right;
} Form;

#define VEC(T, name)               \
  static T *name;                  \
  static u64 n_##name, room_##name
#define PUSH(name, ...)                                                       \
  do {                                                                        \
    if (UNLIKELY(n_##name == room_##name)) {                                  \
      room_##name = room_##name ? 2 * room_##name : 64;                       \
      name = realloc(name, room_##name * sizeof *name);                       \
      if (!name) give_up(4, "Memory");                                        \
    }                                                                         \
    name[n_##name++] = (__VA_ARGS__);                                         \
  } while (0)

VEC(Sym, syms);
VEC(Note, notes);
VEC(Binder, binders);      // of all terms
VEC(SpecTerm, sterms);
VEC(u8, smods);
VEC(Lit, lits);
VEC(Form, forms);
static u32 *sym_table, sym_mask;
static u32 stamp;
static Store X;            // the statement's expressions, by FV
#define XBOUND 0x80000000u
#define MAXL UINT64_MAX

// The statement that is being read.
VEC(Binder, vars);         // parameters
VEC(u32, var_ids);         // their nodes
VEC(u32, later);           // dependencies of groups without names
VEC(u32, names);
typedef struct { const u8 *s; u32 len, times; } Math;
VEC(Math, maths);
VEC(u32, formulas);
static u32 n_xbound, n_xdummies;
static u32 bound_place[64];

static u8 char_class[256]; // 1 not allowed, 2 space, 4 left, 8 right, 16 name, 32 digit
#define CLASS_BAD 1
#define CLASS_SPACE 2
#define CLASS_LEFT 4
#define CLASS_RIGHT 8
#define CLASS_NAME 16
#define CLASS_DIGIT 32

static inline u32 hash_text(const u8 *s, u32 len) {
  u64 h = len * HASH_K;
  while (len >= 8) { h = HASH_STEP(h, ld64(s)); s += 8; len -= 8; }
  u64 rest = 0;
  while (len) { rest = rest << 8 | *s++; len--; }
  h = HASH_STEP(h, rest);
  return (u32)(h >> 32);
}

static inline u32 sym_find(const u8 *s, u32 len, u32 h) {
  for (u32 i = h & sym_mask;; i = (i + 1) & sym_mask) {
    u32 e = sym_table[i];
    if (e == NONE) return NONE;
    if (syms[e].hash == h && syms[e].len == len && memcmp(syms[e].s, s, len) == 0) return e;
  }
}

static void sym_place(u32 e) {
  u32 i = syms[e].hash & sym_mask;
  while (sym_table[i] != NONE) i = (i + 1) & sym_mask;
  sym_table[i] = e;
}

static u32 sym_of(const u8 *s, u32 len) {
  u32 h = hash_text(s, len), e = sym_find(s, len, h);
  if (e != NONE) return e;
  e = n_syms;
  PUSH(syms, (Sym){s, len, h, NONE, NONE, NONE, 0, 0, 0});
  if (UNLIKELY(n_syms * 2 > sym_mask)) {
    u64 size = 2 * ((u64)sym_mask + 1);
    sym_table = realloc(sym_table, size * 4);
    if (!sym_table) give_up(4, "Memory");
    memset(sym_table, 0xFF, size * 4);
    sym_mask = size - 1;
    for (u32 i = 0; i < n_syms; i++) sym_place(i);
  } else {
    sym_place(e);
  }
  return e;
}

// ----- lexemes

typedef enum { T_END, T_SYMBOL, T_NAME, T_NUMBER, T_MATH } Kind;
static Kind tk;            // the lexeme ahead
static const u8 *ts;
static u32 tlen;

static void advance(void) {
  const u8 *p = text_at, *end = text_end;
  for (;;) {
    if (p == end) { tk = T_END; text_at = p; return; }
    u32 c = char_class[*p];
    if (c & CLASS_SPACE) { p++; continue; }
    REQUIRE(!(c & CLASS_BAD), "character");
    if (*p == '-' && p + 1 < end && p[1] == '-') {
      while (p < end && *p != '\n') {
        REQUIRE(!(char_class[*p] & CLASS_BAD), "character");
        p++;
      }
      continue;
    }
    break;
  }
  ts = p;
  u32 c = char_class[*p];
  if (c & CLASS_NAME) {
    do p++; while (p < end && char_class[*p] & (CLASS_NAME | CLASS_DIGIT));
    tk = p - ts == 1 && *ts == '_' ? T_SYMBOL : T_NAME;
  } else if (c & CLASS_DIGIT) {
    p++;
    if (*ts != '0') while (p < end && char_class[*p] & CLASS_DIGIT) p++;
    tk = T_NUMBER;
  } else if (*p == '$') {
    p++;
    while (p < end && *p != '$') {
      REQUIRE(!(char_class[*p] & CLASS_BAD), "character");
      p++;
    }
    REQUIRE(p < end, "token");
    p++;
    tk = T_MATH;
  } else {
    REQUIRE(strchr("*.:;(){}>=", *p), "token");
    p++;
    tk = T_SYMBOL;
  }
  tlen = p - ts;
  text_at = p;
}

static inline int at_symbol(u8 c) { return tk == T_SYMBOL && *ts == c; }
static inline int at_word(const char *w) { return tk == T_NAME && tlen == strlen(w) && memcmp(ts, w, tlen) == 0; }
static inline void symbol(u8 c) { REQUIRE(at_symbol(c), "statement"); advance(); }
static u32 id(void) {
  REQUIRE(tk == T_NAME, "statement");
  u32 e = sym_of(ts, tlen);
  advance();
  return e;
}
static Math math(void) {
  REQUIRE(tk == T_MATH, "statement");
  Math m = {ts + 1, tlen - 2, 1};
  advance();
  return m;
}
static u64 level(void) {
  if (at_word("max")) { advance(); return MAXL; }
  REQUIRE(tk == T_NUMBER, "statement");
  u64 n = 0;
  for (u32 i = 0; i < tlen; i++) {
    n = 10 * n + (ts[i] - '0');
    REQUIRE(n <= 4294967294u, "number");
  }
  advance();
  return n;
}

// ----- tokens of math strings

#define MOST 4096
static u32 tokens[MOST];
static u32 n_tokens, at_token;
static u32 open_sym, close_sym;

// The next token at or after *p, or 0.
static inline int next_piece(const u8 **p, const u8 *end, const u8 **from, u32 *len) {
  const u8 *q = *p;
  while (q < end && char_class[*q] & CLASS_SPACE) q++;
  if (q == end) return 0;
  *from = q;
  for (;;) {
    u32 c = char_class[*q++];
    if (c & CLASS_LEFT || q == end || char_class[*q] & (CLASS_SPACE | CLASS_RIGHT)) break;
  }
  *len = q - *from;
  *p = q;
  return 1;
}

static void read_tokens(Math m) {
  const u8 *p = m.s, *end = m.s + m.len, *from;
  u32 len;
  n_tokens = at_token = 0;
  while (next_piece(&p, end, &from, &len)) {
    u32 e = sym_find(from, len, hash_text(from, len));
    REQUIRE(e != NONE, "math token");
    REQUIRE(n_tokens < MOST, "depth");
    tokens[n_tokens++] = e;
  }
}

static u32 constant(Math m) {
  const u8 *p = m.s, *end = m.s + m.len, *from, *f2;
  u32 len, l2;
  REQUIRE(next_piece(&p, end, &from, &len) && !next_piece(&p, end, &f2, &l2), "notation form");
  u32 e = sym_of(from, len);
  REQUIRE(e != open_sym && e != close_sym, "notation form");
  return e;
}

// ----- coercions

static u64 *reach, *coreach;
static u32 *next_hop;      // [from][to]: the first coercion of the path
static u32 sort_cap;
typedef struct { u32 term, to; } Coercion;
VEC(Coercion, coercions);
#define REACH(m, s) ((m) + (u64)(s) * (sort_cap / 64))
#define HAS(row, s) ((row)[(s) / 64] >> ((s) % 64) & 1)

static void grow_sorts(void) {
  u32 old = sort_cap, cap = old ? old : 64;
  while (cap < n_smods) cap *= 2;
  u64 *r = calloc((u64)cap * cap / 64, 8), *c = calloc((u64)cap * cap / 64, 8);
  u32 *h = malloc((u64)cap * cap * 4);
  if (!r || !c || !h) give_up(4, "Memory");
  for (u32 i = 0; i < cap; i++) {
    if (i < old) {
      memcpy(r + (u64)i * (cap / 64), reach + (u64)i * (old / 64), old / 8);
      memcpy(c + (u64)i * (cap / 64), coreach + (u64)i * (old / 64), old / 8);
      memcpy(h + (u64)i * cap, next_hop + (u64)i * old, 4 * (u64)old);
    } else {
      r[(u64)i * (cap / 64) + i / 64] |= 1ull << i % 64;
      c[(u64)i * (cap / 64) + i / 64] |= 1ull << i % 64;
    }
  }
  free(reach); free(coreach); free(next_hop);
  reach = r; coreach = c; next_hop = h;
  sort_cap = cap;
}

static void add_coercion(u32 t, u32 from, u32 to) {
  SpecTerm *d = &sterms[t];
  REQUIRE(d->n == 1 && !binders[d->params].bound && binders[d->params].sort == from && d->sort == to,
          "notation form");
  if (sort_cap < n_smods) grow_sorts();
  u32 words = sort_cap / 64;
  u64 *behind = REACH(reach, to), *before = REACH(coreach, from);
  REQUIRE(!HAS(behind, from), "coercion clash");
  for (u32 i = 0; i < words; i++)
    for (u64 b = before[i]; b; b &= b - 1) {
      u64 *ways = REACH(reach, i * 64 + __builtin_ctzll(b));
      for (u32 j = 0; j < words; j++) REQUIRE(!(ways[j] & behind[j]), "coercion clash");
    }
  u32 c = n_coercions;
  PUSH(coercions, (Coercion){t, to});
  for (u32 i = 0; i < words; i++)
    for (u64 b = before[i]; b; b &= b - 1) {
      u32 u = i * 64 + __builtin_ctzll(b);
      u32 hop = u == from ? c : next_hop[(u64)u * sort_cap + from];
      u64 *ways = REACH(reach, u);
      for (u32 j = 0; j < words; j++) {
        ways[j] |= behind[j];
        for (u64 v = behind[j]; v; v &= v - 1)
          next_hop[(u64)u * sort_cap + j * 64 + __builtin_ctzll(v)] = hop;
      }
    }
  for (u32 j = 0; j < words; j++)
    for (u64 v = behind[j]; v; v &= v - 1) {
      u64 *w = REACH(coreach, j * 64 + __builtin_ctzll(v));
      for (u32 i = 0; i < words; i++) w[i] |= before[i];
    }
}

// ----- formulas

VEC(u32, operands);

static u32 x_app(u32 t, u32 *es) {
  SpecTerm *d = &sterms[t];
  Node *nd = store_tip(&X, d->n);
  u64 h = HASH_START(t, d->n);
  u32 height = 0;
  u64 bound[64], all = 0;
  u32 k = 0;
  Binder *b = binders + d->params;
  for (u32 i = 0; i < d->n; i++) {
    Node *x = NODE(&X, es[i]);
    if (x->height > height) height = x->height;
    if (b[i].bound) {
      bound[k++] = x->deps;
    } else {
      u64 set = 0;
      for (u64 w = b[i].deps; w; w &= w - 1) set |= bound[__builtin_ctzll(w)];
      all |= x->deps & ~set;
    }
    nd->args[i] = es[i];
    h = HASH_STEP(h, es[i]);
  }
  for (u64 w = d->deps; w; w &= w - 1) all |= bound[__builtin_ctzll(w)];
  nd->head = t;
  nd->nargs = d->n;
  int fresh;
  u32 id = store_enter(&X, nd, h, &fresh);
  if (fresh) {
    nd->deps = all;
    nd->sortb = d->sort;
    nd->height = height < 60000 ? height + 1 : 60000;
  }
  return id;
}

static u32 wrap(u32 e, u32 to) {
  u32 from = NODE(&X, e)->sortb & ~XBOUND;
  if (from == to) return e;
  REQUIRE(from < sort_cap && to < sort_cap && HAS(REACH(reach, from), to), "no coercion");
  while (from != to) {
    Coercion c = coercions[next_hop[(u64)from * sort_cap + to]];
    e = x_app(c.term, &e);
    from = c.to;
  }
  return e;
}

static void put_operand(u64 slot, const Binder *b, u32 e) {
  if (b->bound) {
    REQUIRE(NODE(&X, e)->sortb == (b->sort | XBOUND), "no coercion");
    operands[slot] = e;
  } else {
    operands[slot] = wrap(e, b->sort);
  }
}

static u64 room_for(u32 n) {
  u64 base = n_operands;
  // Each operand takes a token.
  REQUIRE(n <= n_tokens, "math syntax");
  for (u32 i = 0; i < n; i++) PUSH(operands, 0);
  return base;
}

static u32 expr(u64 level);

static void read_literals(const Form *f, u32 from, u64 base) {
  u64 l = f->lits;
  u32 n = f->n;
  u64 params = sterms[f->term].params;
  for (u32 i = from; i < n; i++) {
    Lit x = lits[l + i];
    if (x.sym != NONE) {
      REQUIRE(at_token < n_tokens && tokens[at_token] == x.sym, "math syntax");
      at_token++;
    } else {
      put_operand(base + x.place, &binders[params + x.place], expr(x.level));
    }
  }
}

static u32 finish_app(u32 t, u64 base) {
  u32 e = x_app(t, operands + base);
  n_operands = base;
  return e;
}

// The variable's node; a dummy gets its bit where it is first met.
static u32 x_variable(u32 v) {
  if (!(v & VAR)) return var_ids[v];
  u32 e = v & ~VAR;
  Node *x = NODE(&X, e);
  if (!x->deps) {
    // No binary has more.
    REQUIRE(n_xbound < 55, "bound variables");
    x->deps = 1ull << n_xbound++;
  }
  return e;
}

static u32 expr(u64 lv) {
  REQUIRE(at_token < n_tokens, "math syntax");
  u32 tok = tokens[at_token++];
  Sym *s = &syms[tok];
  u64 have;
  int left = 0;
  u32 e;
  if (s->stamp == stamp) {
    e = x_variable(s->var);
    have = MAXL;
  } else if (s->note != NONE && notes[s->note].leading != NONE) {
    Form *f = &forms[notes[s->note].leading];
    have = f->level;
    REQUIRE(have >= lv, "math syntax");
    u64 base = room_for(sterms[f->term].n);
    read_literals(f, 1, base);
    e = finish_app(f->term, base);
  } else if (s->term != NONE) {
    u32 t = s->term, n = sterms[t].n;
    have = n ? 1024 : MAXL;
    REQUIRE(have >= lv, "math syntax");
    u64 base = room_for(n), params = sterms[t].params;
    for (u32 i = 0; i < n; i++) put_operand(base + i, &binders[params + i], expr(MAXL));
    e = finish_app(t, base);
  } else {
    REQUIRE(tok == open_sym, "math syntax");
    e = expr(0);
    REQUIRE(at_token < n_tokens && tokens[at_token] == close_sym, "math syntax");
    at_token++;
    have = MAXL;
  }
  while (at_token < n_tokens) {
    u32 note = syms[tokens[at_token]].note;
    if (note == NONE || notes[note].infix == NONE) break;
    Form *f = &forms[notes[note].infix];
    u64 n = f->level;
    if (n < lv || !(have > n || (!f->right && left && have == n))) break;
    at_token++;
    u64 base = room_for(sterms[f->term].n);
    u32 place = lits[f->lits].place;
    put_operand(base + place, &binders[sterms[f->term].params + place], e);
    read_literals(f, 2, base);
    e = finish_app(f->term, base);
    have = n;
    left = !f->right;
  }
  return e;
}

// wanted: a sort, or NONE for a provable one.
static u32 formula(Math m, u32 wanted) {
  read_tokens(m);
  n_operands = 0;
  u32 e = expr(0);
  REQUIRE(at_token == n_tokens, "math syntax");
  if (wanted != NONE) e = wrap(e, wanted);
  REQUIRE(NODE(&X, e)->height <= MOST, "depth");
  if (wanted == NONE) {
    u32 s = NODE(&X, e)->sortb & ~XBOUND;
    if (!(smods[s] & PROVABLE)) {
      u32 found = NONE;
      if (s < sort_cap) {
        u64 *row = REACH(reach, s);
        for (u32 i = 0; i < sort_cap / 64; i++)
          for (u64 b = row[i]; b; b &= b - 1) {
            u32 v = i * 64 + __builtin_ctzll(b);
            if (v < n_smods && smods[v] & PROVABLE) {
              REQUIRE(found == NONE, "not provable");
              found = v;
            }
          }
      }
      REQUIRE(found != NONE, "not provable");
      e = wrap(e, found);
    }
  }
  return e;
}

// ----- statements

static void begin_statement(void) {
  stamp++;
  n_vars = n_var_ids = n_later = n_maths = n_formulas = 0;
  n_xbound = n_xdummies = 0;
  store_begin(&X);
}

static void name_var(u32 e, u32 v) {
  if (e == NONE) return;
  REQUIRE(syms[e].stamp != stamp, "name twice");
  syms[e].stamp = stamp;
  syms[e].var = v;
}

static void add_param(u32 e, u32 sort, u32 bound, u64 deps) {
  u32 i = n_vars;
  if (bound) {
    REQUIRE(n_xbound < 55, "bound variables");
    bound_place[n_xbound] = i;
    deps = 1ull << n_xbound++;
  }
  name_var(e, i);
  PUSH(vars, (Binder){deps, sort, bound});
  PUSH(var_ids, store_var(&X, i, sort | (bound ? XBOUND : 0), deps));
}

static u32 sort_id(void) {
  u32 e = id(), s = syms[e].sort;
  REQUIRE(s != NONE, "unknown name");
  return s;
}

// The dependencies of a type, as bits: each an earlier bound parameter.
static u64 type_deps(void) {
  u64 deps = 0;
  while (tk == T_NAME) {
    u32 e = id();
    Sym *s = &syms[e];
    REQUIRE(s->stamp == stamp && !(s->var & VAR) && vars[s->var].bound, "binder");
    deps |= vars[s->var].deps;
  }
  return deps;
}

enum { G_BINDER, G_ABINDER, G_DBINDER };
#define DUMMY_NAME 0x80000000u
#define NO_NAME 0x7FFFFFFFu

static void groups(int which) {
  for (;;) {
    int curly = at_symbol('{');
    if (!curly && !at_symbol('(')) break;
    advance();
    n_names = 0;
    for (;;) {
      u32 dot = 0;
      if (which == G_DBINDER && at_symbol('.')) {
        dot = DUMMY_NAME;
        advance();
      }
      if (tk == T_NAME) {
        u32 e = id();
        PUSH(names, e | dot);
      } else if (at_symbol('_')) {
        advance();
        PUSH(names, NO_NAME | dot);
      } else {
        REQUIRE(!dot, "statement");
        break;
      }
    }
    symbol(':');
    if (!curly && which == G_ABINDER && tk == T_MATH) {
      Math m = math();
      m.times = n_names;
      PUSH(maths, m);
    } else {
      u32 sort = sort_id();
      if (n_names == 0) {
        while (tk == T_NAME) PUSH(later, id());
      } else {
        int has_deps = tk == T_NAME;
        u64 deps = type_deps();
        for (u64 i = 0; i < n_names; i++) {
          u32 e = names[i] & ~DUMMY_NAME;
          if (e == NO_NAME) e = NONE;
          if (names[i] & DUMMY_NAME) {
            REQUIRE(!has_deps, "binder");
            REQUIRE(!(smods[sort] & (STRICT | FREE)), "dummy sort");
            name_var(e, VAR | store_var(&X, VAR - 1, sort | XBOUND, 0));
            n_xdummies++;
          } else if (curly) {
            REQUIRE(!has_deps && !(smods[sort] & STRICT), "binder");
            add_param(e, sort, 1, 0);
          } else {
            add_param(e, sort, 0, deps);
          }
        }
      }
    }
    symbol(curly ? '}' : ')');
  }
  for (u64 i = 0; i < n_later; i++) REQUIRE(syms[later[i]].stamp == stamp, "unknown name");
}

// What a declaration says, for the match.
typedef struct {
  int kind;      // SORT, TERM_STMT, AXIOM, THEOREM
  u32 mods;
  u32 term;
  u32 body;      // NONE where there is none
} Decl;

static u32 add_term(u32 name, u32 sort, u64 deps, u32 is_def) {
  REQUIRE(!(smods[sort] & PURE), "pure");
  u32 t = n_sterms;
  u64 from = n_binders;
  for (u64 i = 0; i < n_vars; i++) PUSH(binders, vars[i]);
  PUSH(sterms, (SpecTerm){from, (u32)n_vars, sort, deps, is_def, NONE});
  syms[name].term = t;
  return t;
}

static u32 note_of(u32 sym, u64 level) {
  u32 n = syms[sym].note;
  if (n == NONE) {
    n = n_notes;
    PUSH(notes, (Note){level, NONE, NONE});
    syms[sym].note = n;
  }
  REQUIRE(notes[n].level == level, "notation clash");
  return n;
}

// For each level with infix forms: do they group to the right?
static u64 *group_keys;
static u8 *group_right;
static u32 n_groups, group_mask;

static void enter_group(u64 level, u32 right) {
  if (!group_keys || n_groups * 2 > group_mask) {
    u32 old = group_keys ? group_mask + 1 : 0, size = old ? 2 * old : 64;
    u64 *k = malloc(8 * (u64)size);
    u8 *r = malloc(size);
    if (!k || !r) give_up(4, "Memory");
    memset(k, 0xFF, 8 * (u64)size);
    for (u32 i = 0; i < old; i++)
      if (group_keys[i] != MAXL) {
        u32 j = (u32)(group_keys[i] * HASH_K >> 32) & (size - 1);
        while (k[j] != MAXL) j = (j + 1) & (size - 1);
        k[j] = group_keys[i];
        r[j] = group_right[i];
      }
    free(group_keys); free(group_right);
    group_keys = k; group_right = r; group_mask = size - 1;
  }
  u32 j = (u32)(level * HASH_K >> 32) & group_mask;
  while (group_keys[j] != MAXL && group_keys[j] != level) j = (j + 1) & group_mask;
  if (group_keys[j] == MAXL) {
    group_keys[j] = level;
    group_right[j] = right;
    n_groups++;
  }
  REQUIRE(group_right[j] == right, "notation clash");
}

static void enter_form(Form f, u32 infix) {
  u64 last = infix ? (f.right ? f.level : f.level + 1) : f.level;
  REQUIRE(!infix || f.level != MAXL, "notation clash");
  for (u32 i = 0; i < f.n; i++) {
    Lit *l = &lits[f.lits + i];
    if (l->sym != NONE) {
      note_of(l->sym, l->level);
    } else if (i + 1 == f.n) {
      l->level = last;
    } else {
      Lit *m = l + 1;
      l->level = m->sym == NONE || m->level == MAXL ? MAXL : m->level + 1;
    }
  }
  Note *n = &notes[syms[lits[f.lits + infix].sym].note];
  u32 *slot = infix ? &n->infix : &n->leading;
  REQUIRE(*slot == NONE, "notation clash");
  if (infix) enter_group(f.level, f.right);
  *slot = n_forms;
  PUSH(forms, f);
}

static void delimiters(Math m, u32 bits) {
  for (u32 i = 0; i < m.len; i++) {
    if (char_class[m.s[i]] & CLASS_SPACE) continue;
    REQUIRE(i + 1 == m.len || char_class[m.s[i + 1]] & CLASS_SPACE, "notation form");
    char_class[m.s[i]] |= bits;
  }
}

static u32 term_id(void) {
  u32 e = id(), t = syms[e].term;
  REQUIRE(t != NONE, "unknown name");
  return t;
}

static void read_notation(void) {
  u32 t = term_id();
  begin_statement();
  groups(G_BINDER);
  symbol(':');
  u32 sort = sort_id();
  u64 deps = type_deps();
  symbol('=');
  SpecTerm *d = &sterms[t];
  REQUIRE(d->n == n_vars && d->sort == sort && d->deps == deps, "notation form");
  for (u32 i = 0; i < d->n; i++) {
    Binder *a = &binders[d->params + i], *b = &vars[i];
    REQUIRE(a->sort == b->sort && a->bound == b->bound && a->deps == b->deps, "notation form");
  }
  Form f = {0, n_lits, 0, t, 0};
  u32 named = 0;
  for (;;) {
    if (tk == T_NAME) {
      u32 e = id();
      Sym *s = &syms[e];
      REQUIRE(s->stamp == stamp && var_ids[s->var] != NONE, "notation form");
      var_ids[s->var] = NONE;
      named++;
      PUSH(lits, (Lit){0, NONE, s->var});
    } else if (at_symbol('(')) {
      advance();
      u32 c = constant(math());
      symbol(':');
      u64 lv = level();
      PUSH(lits, (Lit){lv, c, 0});
      symbol(')');
    } else {
      break;
    }
    f.n++;
  }
  REQUIRE(f.n > 0, "statement");
  REQUIRE(named == d->n, "notation form");
  u32 infix = 0;
  if (at_symbol(':')) {
    advance();
    f.level = level();
    if (at_word("rassoc")) f.right = 1;
    else REQUIRE(at_word("lassoc"), "statement");
    advance();
    infix = 1;
  }
  symbol(';');
  Lit *l = &lits[f.lits];
  if (infix) {
    REQUIRE(l[0].sym == NONE && f.n > 1 && l[1].sym != NONE && l[1].level == f.level, "notation form");
  } else {
    REQUIRE(l[0].sym != NONE, "notation form");
    f.level = l[0].level;
  }
  enter_form(f, infix);
}

// The next declaration; 0 at the end of the text. Statements that declare
// nothing are read on the way.
static int next_decl(Decl *out) {
  while (tk != T_END) {
    REQUIRE(tk == T_NAME, "statement");
    out->body = NONE;
    if (at_word("axiom") || at_word("theorem")) {
      out->kind = at_word("axiom") ? AXIOM : THEOREM;
      advance();
      u32 name = id();
      REQUIRE(!syms[name].thm, "name twice");
      begin_statement();
      groups(G_ABINDER);
      symbol(':');
      for (;;) {
        if (tk == T_MATH) {
          Math m = math();
          PUSH(maths, m);
          if (!at_symbol('>')) break;
        } else {
          u32 sort = sort_id();
          u64 deps = type_deps();
          add_param(NONE, sort, 0, deps);
          REQUIRE(at_symbol('>'), "statement");
        }
        advance();
      }
      symbol(';');
      for (u64 i = 0; i < n_maths; i++) {
        u32 e = formula(maths[i], NONE);
        for (u32 k = 0; k < maths[i].times; k++) PUSH(formulas, e);
      }
      syms[name].thm = 1;
      return 1;
    }
    if (at_word("term")) {
      out->kind = TERM_STMT;
      advance();
      u32 name = id();
      REQUIRE(syms[name].term == NONE, "name twice");
      begin_statement();
      groups(G_BINDER);
      symbol(':');
      for (;;) {
        u32 sort = sort_id();
        u64 deps = type_deps();
        if (!at_symbol('>')) {
          out->term = add_term(name, sort, deps, 0);
          break;
        }
        advance();
        add_param(NONE, sort, 0, deps);
      }
      symbol(';');
      return 1;
    }
    if (at_word("def")) {
      out->kind = TERM_STMT;
      advance();
      u32 name = id();
      REQUIRE(syms[name].term == NONE, "name twice");
      begin_statement();
      groups(G_DBINDER);
      symbol(':');
      u32 sort = sort_id();
      u64 deps = type_deps();
      if (at_symbol('=')) {
        advance();
        out->body = formula(math(), sort);
        REQUIRE(!(NODE(&X, out->body)->deps & ~deps), "definition dependencies");
      }
      symbol(';');
      out->term = add_term(name, sort, deps, 1);
      return 1;
    }
    if (at_word("infixl") || at_word("infixr") || at_word("prefix")) {
      int prefix = *ts == 'p', right = tlen == 6 && ts[5] == 'r';
      advance();
      u32 t = term_id();
      symbol(':');
      u32 c = constant(math());
      REQUIRE(at_word("prec"), "statement");
      advance();
      u64 lv = level();
      symbol(';');
      Form f = {lv, n_lits, sterms[t].n + 1, t, !prefix && right};
      if (prefix) {
        PUSH(lits, (Lit){lv, c, 0});
        for (u32 i = 0; i < sterms[t].n; i++) PUSH(lits, (Lit){0, NONE, i});
      } else {
        REQUIRE(sterms[t].n == 2, "notation form");
        PUSH(lits, (Lit){0, NONE, 0});
        PUSH(lits, (Lit){lv, c, 0});
        PUSH(lits, (Lit){0, NONE, 1});
      }
      enter_form(f, !prefix);
      continue;
    }
    if (at_word("notation")) {
      advance();
      read_notation();
      continue;
    }
    if (at_word("coercion")) {
      advance();
      u32 t = term_id();
      symbol(':');
      u32 from = sort_id();
      symbol('>');
      u32 to = sort_id();
      symbol(';');
      add_coercion(t, from, to);
      continue;
    }
    if (at_word("delimiter")) {
      advance();
      Math l = math();
      if (tk == T_MATH) {
        Math r = math();
        delimiters(l, CLASS_LEFT);
        delimiters(r, CLASS_RIGHT);
      } else {
        delimiters(l, CLASS_LEFT | CLASS_RIGHT);
      }
      symbol(';');
      continue;
    }
    out->kind = SORT;
    out->mods = 0;
    static const char *mods[] = {"pure", "strict", "provable", "free"};
    for (int i = 0; i < 4; i++)
      if (at_word(mods[i])) {
        out->mods |= 1 << i;
        advance();
      }
    REQUIRE(at_word("sort"), "statement");
    advance();
    u32 name = id();
    REQUIRE(syms[name].sort == NONE, "name twice");
    symbol(';');
    syms[name].sort = n_smods;
    PUSH(smods, (u8)out->mods);
    return 1;
  }
  return 0;
}

static void spec_start(File f) {
  text = text_at = f.at;
  text_end = f.at + f.len;
  for (u32 c = 0; c < 256; c++) {
    u8 k = c == ' ' || c == '\n' ? CLASS_SPACE : c < 0x20 || c > 0x7E ? CLASS_BAD : 0;
    if ((c >= 'a' && c <= 'z') || (c >= 'A' && c <= 'Z') || c == '_') k |= CLASS_NAME;
    if (c >= '0' && c <= '9') k |= CLASS_DIGIT;
    char_class[c] = k;
  }
  sym_mask = 1023;
  sym_table = malloc(4 * 1024);
  memset(sym_table, 0xFF, 4 * 1024);
  open_sym = sym_of((const u8 *)"(", 1);
  close_sym = sym_of((const u8 *)")", 1);
  store_new(&X);
  begin_statement();
  advance();
}

// ------------------------------------------------------------------- the match

static void same_params(const u8 *words, u32 n) {
  REQUIRE(n == n_vars, "binders");
  for (u32 i = 0; i < n; i++) {
    u64 w = (u64)vars[i].bound << 63 | (u64)vars[i].sort << 56 | vars[i].deps;
    REQUIRE(vars[i].sort < 128 && ld64(words + 8 * (u64)i) == w, "binders");
  }
}

// The row's stream over the specification's expressions: the conclusion, then
// the hypotheses from the last to the first.
static void same_stream(const u8 *p, u32 n, u32 target, u32 hyps_left) {
  u32 *tp = targets;
  if (n) memcpy(uheap, var_ids, 4 * (u64)n);
  *tp++ = target;
  for (;;) {
    u32 code, value;
    DECODE(p, bin_end, code, value);
    switch (code) {
      case U_TERM_SAVE:
      case U_TERM: {
        u32 e = *--tp;
        Node *x = NODE(&X, e);
        REQUIRE(!(x->head & VAR) && sterms[x->head].row == value, "match");
        for (u32 i = x->nargs; i > 0;) *tp++ = x->args[--i];
        if (UNLIKELY(tp > targets_room)) give_up(4, "Memory");
        if (code == U_TERM_SAVE) uheap[n++] = e;
        break;
      }
      case U_REF: {
        u32 e = *--tp;
        REQUIRE(value < n && uheap[value] == e, "match");
        break;
      }
      case U_DUMMY: {
        u32 e = *--tp;
        Node *x = NODE(&X, e);
        REQUIRE(x->head == (VAR | (VAR - 1)) && x->sortb == (value | XBOUND) && x->height == 1, "match");
        x->height = 2;   // met
        uheap[n++] = e;
        break;
      }
      case U_HYP:
        REQUIRE(hyps_left > 0, "match");
        *tp++ = formulas[--hyps_left];
        break;
      default:  // END: the stream was run before
        REQUIRE(hyps_left == 0, "match");
        return;
    }
  }
}

static void match(int kind, u32 row) {
  Decl d;
  REQUIRE(next_decl(&d), "extra public");
  REQUIRE(d.kind == kind, "kind differs");
  if (kind == SORT) {
    REQUIRE(d.mods == mods_of(row), "modifiers");
  } else if (kind == TERM_STMT) {
    const u8 *rec = terms + 8 * (u64)row, *words = bin + ld32(rec + 4);
    SpecTerm *t = &sterms[d.term];
    u32 n = ld16(rec);
    REQUIRE(t->is_def == (u32)(rec[2] >> 7), "kind differs");
    same_params(words, n);
    REQUIRE(t->sort < 128 && ld64(words + 8 * (u64)n) == ((u64)t->sort << 56 | t->deps), "result");
    if (d.body != NONE) same_stream(words + 8 * ((u64)n + 1), n, d.body, 0);
    t->row = row;
  } else {
    const u8 *rec = thms + 8 * (u64)row, *words = bin + ld32(rec + 4);
    u32 n = ld16(rec);
    same_params(words, n);
    same_stream(words + 8 * (u64)n, n, formulas[n_formulas - 1], n_formulas - 1);
  }
}

// ------------------------------------------------------------------ statements

static void check_words(const u8 *words, u32 n) {
  u32 k = 0;
  for (u32 i = 0; i < n; i++) {
    u64 w = ld64(words + 8 * (u64)i), bits = w & ((1ull << 56) - 1);
    u32 s = w >> 56 & 0x7F;
    REQUIRE(s < at_sort, "binder");
    if (w >> 63) {
      REQUIRE(k < 55 && bits == 1ull << k && !(mods_of(s) & STRICT), "binder");
      k++;
    } else {
      REQUIRE(!(bits >> k), "binder");
    }
  }
  n_bound = k;
}

static void verify(void) {
  const u8 *p = bin + ld32(bin + 24);
  for (;;) {
    const u8 *from = p;
    u32 code, value;
    DECODE(p, bin_end, code, value);
    if (code == END) {
      REQUIRE(at_sort == n_sorts && at_term == n_terms && at_thm == n_thms, "rows left");
      Decl d;
      REQUIRE(!next_decl(&d), "missing public");
      return;
    }
    REQUIRE(value >= p - from && value <= bin_end - from, "statement length");
    const u8 *next = from + value;
    int local = code == LOCAL_DEF || code == LOCAL_THEOREM;
    if (local) code -= LOCAL_DEF - TERM_STMT;
    u32 row;
    switch (code) {
      case SORT:
        REQUIRE(at_sort < n_sorts, "no row");
        row = at_sort;
        REQUIRE(next == p || (next == p + 1 && *p == 0), "statement length");
        at_sort++;
        break;
      case TERM_STMT: {
        REQUIRE(at_term < n_terms, "no row");
        row = at_term;
        const u8 *rec = terms + 8 * (u64)row, *words = bin + ld32(rec + 4);
        u32 n = ld16(rec), s = rec[2] & 0x7F;
        int def = rec[2] >> 7;
        REQUIRE(def || !local, "statement kind");
        check_words(words, n);
        u64 w = ld64(words + 8 * (u64)n), bits = w & ((1ull << 56) - 1);
        REQUIRE(w >> 56 == s && s < at_sort && !(mods_of(s) & PURE) && !(bits >> n_bound), "result");
        if (def) run_body(p, next, TERM_STMT, row);
        else REQUIRE(next == p || (next == p + 1 && *p == 0), "statement length");
        at_term++;
        break;
      }
      case AXIOM:
      case THEOREM: {
        REQUIRE(at_thm < n_thms, "no row");
        row = at_thm;
        const u8 *rec = thms + 8 * (u64)row;
        check_words(bin + ld32(rec + 4), ld16(rec));
        run_body(p, next, code, row);
        at_thm++;
        break;
      }
      default:
        refuse("statement kind");
    }
    if (!local) match(code, row);
    p = next;
  }
}

int main(int argc, char **argv) {
  if (argc != 3) give_up(2, "verifier SPEC BIN, or verifier -s SPEC");
  if (strcmp(argv[1], "-s") == 0) {
    spec_start(map_file(argv[2]));
    Decl d;
    u64 n = 0;
    while (next_decl(&d)) n++;
    printf("read: %llu declarations\n", (unsigned long long)n);
    return 0;
  }
  File s = map_file(argv[1]), b = map_file(argv[2]);
  read_header(b);
  spec_start(s);
  verify();
  printf("accepted\n");
  return 0;
}
