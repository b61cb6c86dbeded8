/* The look-ups of `im_bench tree` in C, with the same keys in the same order, over pages with the same entries: a root, inner pages and leaves
 * of eight-byte keys, of which 1,024 at most are held. A plain pool: frames by use in arrays, a table that has the frame of each page, one copy
 * of 4,096 bytes for a page that is not held, and of those bytes a test, or none: the slots and cells that a `Page` tests, for keys of eight
 * bytes, but not the header. It is no floor: `im_bench tree` was faster in some pairs.
 *     cc -O3 -o pool pool.c && ./pool [--no-test]
 * In turn with `im_bench tree --time`, four pairs, by means of 1,000,000 look-ups there and 2,000,000 here: 1,228 to 1,311 ns there, 1,496 to
 * 1,586 here with the test, and 738 to 813 without. There a page whose cells lie in order is tested with no flags. */
#include <stdint.h>
#include <stdio.h>
#include <stdlib.h>
#include <string.h>
#include <time.h>

enum { PAGE = 4096, HEAD = 32, FRAMES = 1024, LEAVES = 6803, ENTRIES = 147, CHILDREN = 187, ROUNDS = 200000 };
enum { INNER = (LEAVES + CHILDREN - 1) / CHILDREN, PAGES = 2 + LEAVES + INNER };
typedef uint8_t u8;
typedef uint16_t u16;
typedef uint32_t u32;
typedef uint64_t u64;

static u16 g16(const u8 *p) {
  u16 v;
  memcpy(&v, p, 2);
  return __builtin_bswap16(v);
}
static u32 g32(const u8 *p) {
  u32 v;
  memcpy(&v, p, 4);
  return __builtin_bswap32(v);
}
static u64 g64(const u8 *p) {
  u64 v;
  memcpy(&v, p, 8);
  return __builtin_bswap64(v);
}
static void put(u8 *p, u64 v, int bytes) {
  for (int i = bytes - 1; i >= 0; i--) {
    p[i] = (u8)v;
    v >>= 8;
  }
}

/* ---- the file of pages */

static u8 *file;

/* Puts an entry behind those of a page whose cells have so many bytes behind the key. */
static void add(u8 *page, u64 key, u64 value, int width) {
  unsigned n = g16(page + 12), at = g16(page + 14) - 9 - width;
  page[at] = 8;
  put(page + at + 1, key, 8);
  put(page + at + 9, value, width);
  put(page + HEAD + 2 * n, at, 2);
  put(page + 12, n + 1, 2);
  put(page + 14, at, 2);
}
static u8 *made(u32 number, u8 kind, u8 level, u32 leftmost) {
  u8 *page = file + (u64)number * PAGE;
  page[8] = kind;
  page[9] = level;
  put(page + 14, PAGE, 2);
  put(page + 24, leftmost, 4);
  return page;
}
static void make(void) {
  file = calloc(PAGES, PAGE);
  u8 *root = made(1, 3, 2, LEAVES + 2);
  for (u32 i = 0; i < INNER; i++) {
    u32 first = i * CHILDREN, count = LEAVES - first < CHILDREN ? LEAVES - first : CHILDREN;
    u8 *page = made(LEAVES + 2 + i, 3, 1, first + 2);
    if (i) add(root, (u64)first * ENTRIES, LEAVES + 2 + i, 4);
    for (u32 j = 1; j < count; j++) add(page, (u64)(first + j) * ENTRIES, first + j + 2, 4);
  }
  for (u32 leaf = 0; leaf < LEAVES; leaf++) {
    u8 *page = made(leaf + 2, 2, 0, 0);
    for (u32 i = 0; i < ENTRIES; i++) add(page, (u64)leaf * ENTRIES + i, (u64)leaf * ENTRIES + i, 8);
  }
}

/* ---- the test of a page's form: the cells stand one behind the other up to the end, each has a slot, and their keys rise */

static int is_form(const u8 *page) {
  static u8 flags[PAGE + 1];
  unsigned width = page[8] == 2 ? 8 : 4, n = g16(page + 12), start = g16(page + 14), any = 0, lacks = 0;
  u64 top = 0;
  if (start < HEAD + 2 * n || PAGE < start) return 0;
  for (unsigned k = HEAD + 2 * n; k < start; k++) any |= page[k];
  if (any) return 0;
  memset(flags, 0, sizeof flags);
  flags[start] = 1;
  for (unsigned i = 0; i < n; i++) {
    unsigned at = g16(page + HEAD + 2 * i);
    if (PAGE <= at) return 0;
    unsigned end = at + 1 + page[at] + width;
    if (PAGE < end || page[at] < 8) return 0;
    flags[end] = 1;
    u64 key = g64(page + at + 1);
    if (i && key <= top) return 0;
    top = key;
  }
  for (unsigned i = 0; i < n; i++) lacks |= !flags[g16(page + HEAD + 2 * i)];
  return flags[PAGE] && !lacks;
}

/* ---- the pool */

static int tests = 1;
static u8 frames[FRAMES][PAGE];
static u32 frame_of[PAGES], page_in[FRAMES], before[FRAMES + 1], behind[FRAMES + 1], used;

static void first(u32 f) {
  before[f] = FRAMES;
  behind[f] = behind[FRAMES];
  before[behind[f]] = f;
  behind[FRAMES] = f;
}
static void take_out(u32 f) {
  behind[before[f]] = behind[f];
  before[behind[f]] = before[f];
}
static const u8 *get(u32 number) {
  u32 f = frame_of[number];
  if (f) {
    take_out(--f);
    first(f);
    return frames[f];
  }
  if (used < FRAMES) {
    f = used++;
  } else {
    f = before[FRAMES];
    frame_of[page_in[f]] = 0;
    take_out(f);
  }
  first(f);
  page_in[f] = number;
  frame_of[number] = f + 1;
  memcpy(frames[f], file + (u64)number * PAGE, PAGE);
  if (tests && !is_form(frames[f])) exit(1);
  return frames[f];
}

/* ---- look-ups */

/* How many of a page's keys are at most this one. */
static unsigned at_most(const u8 *page, u64 key) {
  unsigned low = 0, high = g16(page + 12);
  while (low < high) {
    unsigned middle = (low + high) / 2;
    if (g64(page + g16(page + HEAD + 2 * middle) + 1) <= key)
      low = middle + 1;
    else
      high = middle;
  }
  return low;
}
static int finds(u64 key) {
  u32 number = 1;
  for (;;) {
    const u8 *page = get(number);
    unsigned i = at_most(page, key);
    const u8 *cell = page + (i ? g16(page + HEAD + 2 * (i - 1)) : 0);
    if (page[8] == 2) return i && g64(cell + 1) == key && g64(cell + 9) == key;
    number = i ? g32(cell + 9) : g32(page + 24);
  }
}
static u64 scattered(u64 n) {
  n += 0x9E3779B97F4A7C15;
  n = (n ^ n >> 30) * 0xBF58476D1CE4E5B9;
  n = (n ^ n >> 27) * 0x94D049BB133111EB;
  return n ^ n >> 31;
}

int main(int argc, char **argv) {
  tests = argc < 2 || strcmp(argv[1], "--no-test");
  before[FRAMES] = behind[FRAMES] = FRAMES;
  make();
  for (int run = 0; run < 10; run++) {
    struct timespec a, b;
    int found = 0;
    clock_gettime(CLOCK_MONOTONIC, &a);
    for (u64 round = 0; round < ROUNDS; round++) found += finds(scattered(round) % ((u64)LEAVES * ENTRIES));
    clock_gettime(CLOCK_MONOTONIC, &b);
    printf("look-up %d of %d, %.0f ns each\n", found, ROUNDS, ((b.tv_sec - a.tv_sec) * 1e9 + (b.tv_nsec - a.tv_nsec)) / ROUNDS);
  }
}
