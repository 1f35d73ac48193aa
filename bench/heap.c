// heap.so, preloaded into a program: by which of its functions the heap was asked for, where it is largest (but for a part of
// 256). Writes a line for each chain of callers into the file that HEAP_OUT names: bytes as malloc keeps them, blocks,
// functions from inside out.
//
// The program has no tables for unwinding. So a caller is sought: the next word of the stack that stands behind a call of the
// function in hand. A chain ends where there is none.
#define _GNU_SOURCE
#include <elf.h>
#include <fcntl.h>
#include <link.h>
#include <stdint.h>
#include <stdio.h>
#include <stdlib.h>
#include <string.h>
#include <sys/mman.h>
#include <sys/stat.h>
#include <unistd.h>

extern void *__libc_malloc(size_t), *__libc_realloc(void *, size_t), __libc_free(void *);
extern void *__libc_stack_end;

enum { DEPTH = 5, CHAINS = 1 << 14, FUNCTIONS = 1 << 16, FINER = 256 };
static const uint64_t MARK = 0x6d7a68656170ull << 16;

typedef struct { uintptr_t start, end; const char *name; } Function;
typedef struct { uint64_t chain, size; } Head;  // before each block: its chain beside the mark, and what it takes
typedef struct { int32_t functions[DEPTH]; int64_t bytes, blocks, most_bytes, most_blocks; } Chain;

static Function functions[FUNCTIONS];
static int many;
static uintptr_t text_begin, text_end;
static Chain chains[CHAINS];  // as they were met
static uint16_t table[2 * CHAINS];  // by hash: a chain's place and one
static int met;
static int64_t live, kept;
static int has_ended;

static int by_start(const void *a, const void *b) {
  uintptr_t x = ((const Function *)a)->start, y = ((const Function *)b)->start;
  return (x > y) - (x < y);
}

static int of_program(struct dl_phdr_info *info, size_t size, void *base) {
  (void)size;
  *(uintptr_t *)base = info->dlpi_addr;
  return 1;  // the first is the program
}

__attribute__((constructor)) static void begin(void) {
  uintptr_t base = 0;
  dl_iterate_phdr(of_program, &base);
  int file = open("/proc/self/exe", O_RDONLY);
  struct stat st;
  if (file < 0 || fstat(file, &st)) return;
  const char *at = mmap(0, st.st_size, PROT_READ, MAP_PRIVATE, file, 0);
  close(file);
  const Elf64_Ehdr *elf = (const void *)at;
  const Elf64_Shdr *sections = (const void *)(at + elf->e_shoff);
  for (int i = 0; i < elf->e_shnum; i++) {
    if (sections[i].sh_type != SHT_SYMTAB) continue;
    const Elf64_Sym *symbols = (const void *)(at + sections[i].sh_offset);
    const char *names = at + sections[sections[i].sh_link].sh_offset;
    for (size_t k = 0; k < sections[i].sh_size / sizeof *symbols && many < FUNCTIONS; k++)
      if (ELF64_ST_TYPE(symbols[k].st_info) == STT_FUNC && symbols[k].st_size)
        functions[many++] = (Function){base + symbols[k].st_value, base + symbols[k].st_value + symbols[k].st_size, names + symbols[k].st_name};
  }
  qsort(functions, many, sizeof *functions, by_start);
  if (many) text_begin = functions[0].start, text_end = functions[many - 1].end;
}

// The function in which a call stands, by what stands behind the call; -1 where it is none of the program's.
static int function_at(uintptr_t behind) {
  if (behind <= text_begin || behind > text_end) return -1;
  int low = 0, high = many;
  while (high - low > 1) {
    int middle = (low + high) / 2;
    if (functions[middle].start < behind) low = middle; else high = middle;
  }
  return behind <= functions[low].end ? low : -1;
}

static int calls(uintptr_t behind, uintptr_t function) {
  if (behind < text_begin + 5 || behind > text_end || *(uint8_t *)(behind - 5) != 0xe8) return 0;
  int32_t distance;
  memcpy(&distance, (void *)(behind - 4), 4);
  return behind + distance == function;
}

// The chain of callers, from the one that `behind` lies in, over the words of the stack from `at`.
static uint64_t chain_of(uintptr_t behind, uintptr_t *at) {
  int32_t found[DEPTH] = {-1, -1, -1, -1, -1};
  found[0] = function_at(behind);
  for (int depth = 1; depth < DEPTH && found[depth - 1] >= 0; depth++) {
    uintptr_t function = functions[found[depth - 1]].start;
    while (at < (uintptr_t *)__libc_stack_end && !calls(*at, function)) at++;
    if (at >= (uintptr_t *)__libc_stack_end) break;
    found[depth] = function_at(*at++);
  }
  uint64_t hash = 14695981039346656037ull;
  for (int i = 0; i < DEPTH; i++) hash = (hash ^ (uint32_t)found[i]) * 1099511628211ull;
  for (uint64_t i = hash >> 40;; i++) {
    uint16_t *slot = &table[i % (2 * CHAINS)];
    if (!*slot && met == CHAINS - 1) abort();
    if (!*slot) memcpy(chains[met].functions, found, sizeof found), *slot = ++met;
    if (!memcmp(chains[*slot - 1].functions, found, sizeof found)) return *slot - 1;
  }
}

static void *put(Head *head, size_t size, uint64_t chain) {
  if (!head) return 0;
  size_t taken = (size + 8 + 15) & ~(size_t)15;
  *head = (Head){MARK | chain, taken < 32 ? 32 : taken};
  chains[chain].bytes += head->size, chains[chain].blocks++;
  live += head->size;
  if (live > kept + kept / FINER && !has_ended) {
    kept = live;
    for (int i = 0; i < met; i++) chains[i].most_bytes = chains[i].bytes, chains[i].most_blocks = chains[i].blocks;
  }
  return head + 1;
}

static Head *head_of(void *block) {
  Head *head = (Head *)block - 1;
  return head->chain >> 16 == MARK >> 16 ? head : 0;
}

static void take(const Head *head) {
  Chain *it = &chains[head->chain & 0xffff];
  it->bytes -= head->size, it->blocks--, live -= head->size;
}

#define CHAIN chain_of((uintptr_t)__builtin_return_address(0), (uintptr_t *)__builtin_frame_address(0) + 2)

void *malloc(size_t size) { return put(__libc_malloc(size + sizeof(Head)), size, CHAIN); }

void *calloc(size_t n, size_t size) {
  void *block = put(__libc_malloc(n * size + sizeof(Head)), n * size, CHAIN);
  return block ? memset(block, 0, n * size) : 0;
}

void free(void *block) {
  if (!block) return;
  Head *head = head_of(block);
  if (head) take(head), head->chain = 0;
  __libc_free(head ? (void *)head : block);
}

void *realloc(void *block, size_t size) {
  if (!block) return put(__libc_malloc(size + sizeof(Head)), size, CHAIN);
  Head *head = head_of(block);
  if (!head) return __libc_realloc(block, size);
  Head old = *head;
  Head *grown = __libc_realloc(head, size + sizeof(Head));
  if (!grown) return 0;
  take(&old);
  return put(grown, size, CHAIN);
}

__attribute__((destructor)) static void end(void) {
  has_ended = 1;
  const char *path = getenv("HEAP_OUT");
  FILE *out = path ? fopen(path, "w") : 0;
  if (!out) return;
  fprintf(out, "%ld\n", (long)kept);
  for (int i = 0; i < met; i++) {
    if (!chains[i].most_blocks) continue;
    fprintf(out, "%ld\t%ld", (long)chains[i].most_bytes, (long)chains[i].most_blocks);
    for (int k = 0; k < DEPTH && chains[i].functions[k] >= 0; k++) fprintf(out, "\t%s", functions[chains[i].functions[k]].name);
    fprintf(out, "\n");
  }
  fclose(out);
}
