// How many of 100,000 packs have the hash of another, by forty keys each, for packs whose serial numbers are alike in some way,
// and how full the fullest of 8,192 parts of a table is. It computes the hash of the tables by itself: std's FoldHasher, begun
// with the eight bytes of a key. Of hashes at random 1.2 would be those of another, and some 32 in the fullest part.
#include <stdint.h>
#include <stdio.h>
#include <stdlib.h>
#include <string.h>

enum { PACKS = 100000, KEYS = 40, PARTS = 8192 };

static const uint64_t MULTIPLIER = 0x9e3779b97f4a7c15;
static const char CHARACTERS[] = "!\"%&'()*+,-./0123456789:;<=>?ABCDEFGHIJKLMNOPQRSTUVWXYZ_abcdefghijklmnopqrstuvwxyz";

static char serials[PACKS][24];
static uint32_t hashes[PACKS];

static uint64_t folded(uint64_t a, uint64_t b) {
  unsigned __int128 product = (unsigned __int128)a * b;
  return (uint64_t)product ^ (uint64_t)(product >> 64);
}

static uint64_t word(const char *bytes, size_t size) {
  uint64_t word = 0;
  memcpy(&word, bytes, size);
  return word;
}

static uint64_t written(uint64_t state, const char *bytes, size_t length) {
  if (length <= 8) {
    uint64_t few = length ? (uint8_t)bytes[0] | (uint64_t)(uint8_t)bytes[length / 2] << 8 | (uint64_t)(uint8_t)bytes[length - 1] << 16 : 0;
    uint64_t all = length >= 4 ? word(bytes, 4) | word(bytes + length - 4, 4) << 32 : few;
    return folded(state ^ all, MULTIPLIER ^ (2 * length));
  }
  uint64_t now = state + length;
  size_t at = 0;
  for (; length - at > 16; at += 16) now = folded(word(bytes + at, 8) ^ now, word(bytes + at + 8, 8) ^ MULTIPLIER);
  return folded(word(bytes + (length > 16 ? length - 16 : 0), 8) ^ now, word(bytes + length - 8, 8) ^ MULTIPLIER);
}

static uint64_t text(uint64_t state, const char *text) { return written(written(state, text, strlen(text)), "\xff", 1); }

static void hash_all(uint64_t seed, const char *code) {
  uint64_t key = written(0x243f6a8885a308d3, (const char *)&seed, 8);
  for (int i = 0; i < PACKS; i++) {
    uint64_t hash = text(text(key, code), serials[i]);
    hashes[i] = (uint32_t)(hash ^ hash >> 32);
  }
}

static int by_number(const void *a, const void *b) {
  uint32_t x = *(const uint32_t *)a, y = *(const uint32_t *)b;
  return (x > y) - (x < y);
}

static int collisions(void) {
  int same = 0;
  qsort(hashes, PACKS, sizeof *hashes, by_number);
  for (int i = 1; i < PACKS; i++) same += hashes[i] == hashes[i - 1];
  return same;
}

static int fullest(int shift) {
  static int parts[PARTS];
  int most = 0;
  memset(parts, 0, sizeof parts);
  for (int i = 0; i < PACKS; i++) {
    int count = ++parts[(hashes[i] >> shift) % PARTS];
    if (count > most) most = count;
  }
  return most;
}

static uint64_t random_seed(void) {
  static uint64_t state = 88172645463325252;
  state ^= state << 13, state ^= state >> 7, state ^= state << 17;
  return state * 0x2545f4914f6cdd1d;
}

static void judge(const char *packs, const char *code) {
  int all = 0, worst = 0, most = 0;
  for (int i = 0; i < KEYS; i++) {
    hash_all(random_seed(), code);
    int low = fullest(0), high = fullest(19), same = collisions();
    all += same;
    if (same > worst) worst = same;
    if (low > most) most = low;
    if (high > most) most = high;
  }
  printf("%-40s mean %.1f, most %d, in the fullest part %d\n", packs, (double)all / KEYS, worst, most);
}

static void print_all(const char *format) {
  for (int i = 0; i < PACKS; i++) snprintf(serials[i], sizeof serials[i], format, i);
}

// Serial numbers whose first `varied` characters are the digits of their number in a base, each times a step; then the rest.
static void spell_all(int varied, int base, int step, const char *rest) {
  for (int i = 0; i < PACKS; i++) {
    for (int at = 0, left = i; at < varied; at++, left /= base) serials[i][at] = CHARACTERS[left % base * step];
    strcpy(serials[i] + varied, rest);
  }
}

// The second half of a serial number that leaves fewest bits in the factor that multiplies the first.
static void few_bits(char half[9]) {
  for (int at = 0; at < 8; at++) {
    int fewest = 9;
    for (const char *c = CHARACTERS; *c; c++) {
      int bits = __builtin_popcount((uint8_t)(*c ^ MULTIPLIER >> 8 * at));
      if (bits < fewest) fewest = bits, half[at] = *c;
    }
  }
  half[8] = 0;
}

int main(void) {
  const char *code = "09506000134352";
  char half[9], format[32];
  print_all("SN%d");
  judge("numbers", code);
  print_all("%016d");
  judge("16 digits", code);
  print_all("%020d");
  judge("20 digits", code);
  print_all("%08dAAAAAAAA");
  judge("8 digits, and the same behind them", code);
  spell_all(17, 2, 60, "");
  judge("17 of two characters", code);
  spell_all(11, 3, 1, "AAAAA");
  judge("11 of three characters, and the same", code);
  few_bits(half);
  snprintf(format, sizeof format, "%%08d%s", half);
  print_all(format);
  judge("8 digits, and few bits in the factor", code);
  spell_all(8, 5, 3, half);
  judge("8 of five characters, and few bits", code);
  print_all("r(frSc)S%08d");
  judge("made up for the key of seed 1", "00000000005340");
  hash_all(1, "00000000005340");
  printf("by that key itself %d\n", collisions());
}
