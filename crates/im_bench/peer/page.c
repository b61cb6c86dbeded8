/* The work of `im_bench page` in C, over the same bytes: a page of 4,096 bytes with big-endian slots of two bytes from
 * byte 32 on and cells (key length, key, row id) packed from the end downward.
 *     cc -O2 -o page page.c && ./page [--time] */
#include <stdint.h>
#include <stdio.h>
#include <string.h>
#include <time.h>

enum { PAGE = 4096, HEAD = 32, KEY = 8 };
typedef uint8_t u8;
typedef uint16_t u16;
typedef uint64_t u64;

static u64 state;
static u64 next(void) {
  state ^= state << 13;
  state ^= state >> 7;
  state ^= state << 17;
  return state;
}
static void key_of(u64 r, u8 *key) {
  for (int j = 0; j < KEY; j++) key[j] = 48 + (r >> 8 * j & 63);
}
static u16 g16(const u8 *p) { return (u16)(p[0] << 8 | p[1]); }
static void p16(u8 *p, unsigned v) {
  p[0] = (u8)(v >> 8);
  p[1] = (u8)v;
}
static u64 g64(const u8 *p) {
  u64 v = 0;
  for (int i = 0; i < 8; i++) v = v << 8 | p[i];
  return v;
}
static void p64(u8 *p, u64 v) {
  for (int i = 7; i >= 0; i--) {
    p[i] = (u8)v;
    v >>= 8;
  }
}
static int compare(const u8 *a, size_t n, const u8 *b, size_t m) {
  int c = memcmp(a, b, n < m ? n : m);
  return c ? c : n < m ? -1 : n > m;
}
static unsigned find(const u8 *page, const u8 *key, size_t n, int *equal) {
  unsigned low = 0, high = g16(page + 12);
  *equal = 0;
  while (low < high) {
    unsigned middle = (low + high) / 2;
    const u8 *cell = page + g16(page + HEAD + 2 * middle);
    int c = compare(cell + 1, cell[0], key, n);
    if (c < 0) low = middle + 1;
    else if (c == 0) {
      *equal = 1;
      return middle;
    } else high = middle;
  }
  return low;
}
static void blank(u8 *page) {
  memset(page + 8, 0, PAGE - 8);
  page[8] = 2;
  p16(page + 14, PAGE);
}
static int insert_at(u8 *page, unsigned i, const u8 *key, size_t n, u64 value) {
  unsigned count = g16(page + 12), start = g16(page + 14), size = (unsigned)(1 + n + 8);
  if (start - HEAD - 2 * count < size + 2) return 0;
  start -= size;
  page[start] = (u8)n;
  memcpy(page + start + 1, key, n);
  p64(page + start + 1 + n, value);
  memmove(page + HEAD + 2 * i + 2, page + HEAD + 2 * i, 2 * (count - i));
  p16(page + HEAD + 2 * i, start);
  p16(page + 12, count + 1);
  p16(page + 14, start);
  return 1;
}
static void remove_at(u8 *page, unsigned i) {
  unsigned count = g16(page + 12), start = g16(page + 14), at = g16(page + HEAD + 2 * i), n = 1 + page[at] + 8u;
  memmove(page + start + n, page + start, at - start);
  memset(page + start, 0, n);
  memmove(page + HEAD + 2 * i, page + HEAD + 2 * i + 2, 2 * (count - i - 1));
  p16(page + HEAD + 2 * (count - 1), 0);
  for (unsigned j = 0; j + 1 < count; j++) {
    unsigned s = g16(page + HEAD + 2 * j);
    if (s < at) p16(page + HEAD + 2 * j, s + n);
  }
  p16(page + 12, count - 1);
  p16(page + 14, start + n);
}
static int well_formed(const u8 *page) {
  unsigned count = g16(page + 12), start = g16(page + 14), sum = 0;
  static u64 seen[PAGE / 64];
  memset(seen, 0, sizeof seen);
  if (page[8] != 2 || page[9] || page[10] > 1 || page[11] || start > PAGE || HEAD + 2 * count > start) return 0;
  for (unsigned i = 24; i < HEAD; i++)
    if (page[i]) return 0;
  for (unsigned i = 0; i < count; i++) {
    unsigned at = g16(page + HEAD + 2 * i);
    if (at < start || at >= PAGE) return 0;
    unsigned n = 1 + page[at] + 8u;
    if (page[at] == 0 || at + n > PAGE) return 0;
    if (seen[at / 64] >> at % 64 & 1) return 0;
    seen[at / 64] |= 1ull << at % 64;
    sum += n;
    if (i) {
      unsigned b = g16(page + HEAD + 2 * (i - 1));
      if (compare(page + b + 1, page[b], page + at + 1, page[at]) >= 0) return 0;
    }
  }
  for (unsigned i = HEAD + 2 * count; i < start; i++)
    if (page[i]) return 0;
  for (unsigned at = start; at < PAGE;) {
    if (!(seen[at / 64] >> at % 64 & 1)) return 0;
    at += 1 + page[at] + 8u;
  }
  return sum == PAGE - start;
}
static int load(u8 *page, const u8 *bytes) {
  if (!well_formed(bytes)) return 0;
  memcpy(page, bytes, PAGE);
  return 1;
}
static unsigned split_point(const u8 *page) {
  unsigned count = g16(page + 12), used = 0;
  for (unsigned i = 0; i < count; i++) {
    used += 1 + page[g16(page + HEAD + 2 * i)] + 8u + 2;
    if (used > 2032) return i;
  }
  return count;
}
static void copy_entries(u8 *to, const u8 *from, unsigned low, unsigned high) {
  unsigned start = PAGE;
  blank(to);
  for (unsigned j = low; j < high; j++) {
    const u8 *cell = from + g16(from + HEAD + 2 * j);
    unsigned n = 1 + cell[0] + 8u;
    start -= n;
    memcpy(to + start, cell, n);
    p16(to + HEAD + 2 * (j - low), start);
  }
  p16(to + 12, high - low);
  p16(to + 14, start);
}

static double now(void) {
  struct timespec t;
  clock_gettime(CLOCK_MONOTONIC, &t);
  return t.tv_sec * 1e9 + t.tv_nsec;
}
static void show(const char *name, u64 sum, double nanos, u64 calls, int timed) {
  if (timed) printf("%s %.1f ns\n", name, nanos / calls);
  else printf("%s %llu\n", name, (unsigned long long)sum);
}
static void leaf(u64 count, int timed) {
  static u8 page[PAGE], other[PAGE], third[PAGE];
  u64 rounds = timed ? 20000 : 1, sum = 0;
  u8 key[KEY];
  int equal;
  memset(page, 0, PAGE);
  blank(page);
  blank(other);
  blank(third);
  state = 88172645463325252ull;
  for (u64 n = 0; n < count; n++) {
    key_of(next(), key);
    unsigned i = find(page, key, KEY, &equal);
    if (!equal) insert_at(page, i, key, KEY, n);
  }
  printf("leaf %llu entries %u\n", (unsigned long long)count, g16(page + 12));
  double t = now();
  for (u64 r = 0; r < rounds; r++) {
    state = 88172645463325252ull;
    for (u64 n = 0; n < count; n++) {
      key_of(next(), key);
      unsigned i = find(page, key, KEY, &equal);
      if (equal) {
        const u8 *cell = page + g16(page + HEAD + 2 * i);
        sum += g64(cell + 1 + cell[0]);
      }
    }
  }
  show("find", sum, now() - t, rounds * count, timed);
  sum = 0;
  t = now();
  for (u64 r = 0; r < rounds; r++) {
    state = 88172645463325252ull;
    for (u64 n = 0; n < count; n++) {
      key_of(next(), key);
      unsigned i = find(page, key, KEY, &equal);
      if (equal) {
        remove_at(page, i);
        sum += i;
      }
      i = find(page, key, KEY, &equal);
      if (!equal) insert_at(page, i, key, KEY, n);
    }
  }
  show("edit", sum, now() - t, rounds * count, timed);
  sum = 0;
  t = now();
  for (u64 r = 0; r < rounds; r++) {
    if (load(other, page)) sum += g16(other + 12);
    __asm__ volatile("" ::: "memory");
  }
  show("read", sum, now() - t, rounds, timed);
  sum = 0;
  t = now();
  for (u64 r = 0; r < rounds; r++) {
    unsigned point = split_point(page);
    copy_entries(other, page, 0, point);
    copy_entries(third, page, point, g16(page + 12));
    sum += g16(other + 12) + 2 * g16(third + 12);
    __asm__ volatile("" ::: "memory");
  }
  show("split", sum, now() - t, rounds, timed);
}

int main(int argc, char **argv) {
  int timed = argc > 1 && strcmp(argv[1], "--time") == 0;
  leaf(150, timed);
  leaf(200, timed);
  return 0;
}
