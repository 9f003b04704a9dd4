// A volume with an irregular and a regular series of a million elements of one integer, both at the same quarter hours;
// their rows as text; and a fold of one that does the least that the format demands.
#include "volume.h"

// An irregular page has room for 290 cells; edits in any order leave it with some 200.
enum { ELEMENTS = 1000000, CELL = 14, ON_PAGE = 200, OFFSET_CELL = 6, ROOM = 677,
       IRREGULAR = ELEMENTS / ON_PAGE, REGULAR = (ELEMENTS + ROOM - 1) / ROOM, PAGES = 8400 };

// A quarter of an hour in units of 10 microseconds.
static const int64_t quarter = 90000000;

static int fill_definitions(int volume) {
  if (!write_head(volume, PAGES)) return 1;
  // {1 on,14 off},minute
  page[0] = 1; name(page + 1, "quarters"); put(page + 34, 8, begin); put(page + 42, 8, begin); page[50] = 1;
  page[52] = 1; put(page + 53, 2, 2); put(page + 55, 4, 0x80000001); put(page + 59, 4, 14);
  if (!write_page(volume, 577)) return 1;
  if (!write_container(volume, PAGES)) return 1;
  page[0] = 2; name(page + 1, "irregular");
  page[94] = 1; name(page + 94 + 1, "regular"); put(page + 94 + 68, 8, begin);
  return !write_page(volume, 834);
}

static int fill(int volume) {
  if (ftruncate(volume, (off_t)(FIRST + PAGES) * PAGE) || fill_definitions(volume)) return 1;
  for (uint32_t i = 0; i < IRREGULAR; i++) {
    page[0] = 2; put(page + 3, 2, ON_PAGE);
    for (uint32_t cell = 0; cell < ON_PAGE; cell++) {
      unsigned char *at = page + HEAD + cell * CELL;
      uint32_t n = i * ON_PAGE + cell;
      at[0] = 1; put(at + 1, 8, begin + n * quarter); at[9] = 1; put(at + 10, 4, n);
    }
    // The order of the pages isn't that of the stamps.
    if (!write_page(volume, FIRST + (uint64_t)i * 1999 % IRREGULAR)) return 1;
  }
  for (uint32_t i = 0; i < REGULAR; i++) {
    uint32_t count = ELEMENTS - i * ROOM < ROOM ? ELEMENTS - i * ROOM : ROOM;
    page[0] = 1; put(page + 1, 2, 1); put(page + 3, 2, count); put(page + 5, 8, i * ROOM);
    for (uint32_t cell = 0; cell < count; cell++) {
      unsigned char *at = page + HEAD + cell * OFFSET_CELL;
      at[0] = at[1] = 1; put(at + 2, 4, i * ROOM + cell);
    }
    if (!write_page(volume, FIRST + IRREGULAR + (uint64_t)i * 1999 % REGULAR)) return 1;
  }
  return fsync(volume);
}

// The stamp of an element, without a fraction.
static void stamp(uint32_t n, char text[64]) {
  int days[] = {31, 28, 31, 30, 31, 30, 31, 31, 30, 31, 30, 31};
  int day = n / 96 + 2, year = 2011, month = 0;
  for (;; year++) {
    int leap = year % 4 == 0 && (year % 100 != 0 || year % 400 == 0);
    days[1] = 28 + leap;
    if (day < 365 + leap) break;
    day -= 365 + leap;
  }
  for (; day >= days[month]; month++) day -= days[month];
  snprintf(text, 64, "%04d-%02d-%02d %02d:%02d:00", year, month + 1, day + 1, n % 96 / 4, n % 4 * 15);
}

// rows FROM TO STEP FORMAT: a line for each element of the numbers from one up to another, going on by so many round
// the million; in the format %1$s stands for the stamp, %2$u for the number.
static int rows(char **words) {
  uint32_t from = strtoul(words[0], 0, 10), to = strtoul(words[1], 0, 10), step = strtoul(words[2], 0, 10);
  for (uint32_t i = from; i < to; i++) {
    uint32_t n = (uint64_t)i * step % ELEMENTS;
    char text[64];
    stamp(n, text);
    printf(words[3], text, n);
    putchar('\n');
  }
  return fflush(stdout);
}

// What is known of the values of a series, or of those of a day.
struct fold {
  int64_t sum, count;
  int32_t least, greatest;
};

static const struct fold none = {0, 0, INT32_MAX, INT32_MIN};

static void say_fold(const struct fold *fold) {
  printf("%lld,%.6f,%d,%d\n", (long long)fold->sum, (double)fold->sum / fold->count, fold->least, fold->greatest);
}

static inline void take(struct fold *fold, const unsigned char *cell) {
  if (cell[0] != 1) return;
  uint32_t bytes;
  memcpy(&bytes, cell + 1, 4);
  int32_t value = __builtin_bswap32(bytes);
  fold->sum += value;
  fold->count++;
  if (value < fold->least) fold->least = value;
  if (value > fold->greatest) fold->greatest = value;
}

// The number of the day of a stamp of the irregular series.
static inline int64_t day_of(const unsigned char *cell) {
  uint64_t bytes;
  memcpy(&bytes, cell, 8);
  return (int64_t)__builtin_bswap64(bytes) / (96 * quarter);
}

// Folds a series in the order of its stamps, all of it, or day by day: each of its pages is read once.
static int fold_series(int volume, int irregular, int by_days) {
  struct fold fold = none;
  uint32_t pages = irregular ? IRREGULAR : REGULAR, first = FIRST + (irregular ? 0 : IRREGULAR), n = 0;
  int64_t day = -1;
  for (uint32_t i = 0; i < pages; i++) {
    if (pread(volume, page, PAGE, (off_t)(first + (uint64_t)i * 1999 % pages) * PAGE) != PAGE) return 1;
    uint32_t filled = page[3] << 8 | page[4];
    const unsigned char *cell = page + HEAD;
    for (uint32_t k = 0; k < filled; k++, n++, cell += irregular ? CELL : OFFSET_CELL) {
      if (cell[0] != 1) continue;
      if (by_days) {
        int64_t own = irregular ? day_of(cell + 1) : n / 96;
        if (own != day && fold.count > 0) { say_fold(&fold); fold = none; }
        day = own;
      }
      take(&fold, cell + (irregular ? 9 : 1));
    }
  }
  say_fold(&fold);
  return fflush(stdout);
}

int main(int count, char **words) {
  if (count == 3 && strcmp(words[1], "fill") == 0) {
    int volume = open(words[2], O_RDWR | O_CREAT | O_TRUNC, 0644);
    return volume < 0 || fill(volume);
  }
  // fold VOLUME SERIES days|all TIMES
  if (count == 6 && strcmp(words[1], "fold") == 0) {
    int volume = open(words[2], O_RDONLY), failed = volume < 0;
    for (int times = atoi(words[5]); times > 0 && !failed; times--)
      failed = fold_series(volume, strcmp(words[3], "irregular") == 0, strcmp(words[4], "days") == 0);
    return failed;
  }
  return count == 6 && strcmp(words[1], "rows") == 0 ? rows(words + 2) : 2;
}
