// The largest volume, as a series of one integer fills it, and what an opening has to do at least: read each page, look
// at each cell once, and keep a directory of 24 bytes a page.
#include "volume.h"

enum { CELL = 14, ROOM = 290, PAGES = 65536, USED = 65000, QUOTA = 65536 };

// One minute in units of 10 microseconds.
static const int64_t minute = 6000000;

struct place {
  int64_t at;
  uint32_t page, count, slot, next;
};

// Pages of 145 and 146 elements in turn: two neighbours hold one more than a page has room for.
static int fill(int volume) {
  if (ftruncate(volume, (off_t)(FIRST + PAGES) * PAGE)) return 1;
  if (!write_head(volume, PAGES)) return 1;
  if (!write_container(volume, QUOTA)) return 1;
  page[0] = 2; name(page + 1, "meter");
  if (!write_page(volume, 834)) return 1;
  int64_t stamp = begin;
  for (uint32_t i = 0; i < USED; i++) {
    // The order of the pages isn't that of the stamps.
    uint32_t number = (uint64_t)i * 7919 % USED;
    uint32_t count = ROOM / 2 + i % 2;
    page[0] = 2;
    put(page + 3, 2, count);
    for (uint32_t cell = 0; cell < count; cell++, stamp += minute) {
      unsigned char *at = page + HEAD + cell * CELL;
      at[0] = 1; put(at + 1, 8, stamp); at[9] = 1; put(at + 10, 4, cell);
    }
    if (!write_page(volume, FIRST + number)) return 1;
  }
  return 0;
}

static int compare(const void *a, const void *b) {
  const struct place *p = a, *q = b;
  return p->at < q->at ? -1 : p->at > q->at;
}

static int look(int volume) {
  struct place *places = malloc(PAGES * sizeof *places);
  uint32_t used = 0, cells = 0;
  if (!places) return 1;
  for (uint32_t i = 0; i < FIRST + PAGES; i++) {
    if (pread(volume, page, PAGE, (off_t)i * PAGE) != PAGE) return 1;
    if (i < FIRST || page[0] == 0) continue;
    uint32_t count = get(page + 3, 2);
    int64_t last = INT64_MIN;
    if (page[0] != 2 || count > ROOM) return 1;
    for (uint32_t cell = 0; cell < count; cell++, cells++) {
      const unsigned char *at = page + HEAD + cell * CELL;
      int64_t stamp = get(at + 1, 8);
      if (at[0] != 1 || at[9] > 1 || stamp <= last || (int32_t)get(at + 10, 4) == INT32_MIN) return 1;
      last = stamp;
    }
    places[used++] = (struct place){get(page + HEAD + 1, 8), i, count, get(page + 1, 2), 0};
  }
  qsort(places, used, sizeof *places, compare);
  printf("%u pages, %u elements\n", used, cells);
  return 0;
}

int main(int count, char **words) {
  int volume = count == 3 ? open(words[2], O_RDWR | O_CREAT, 0644) : -1;
  if (volume < 0) return 1;
  return strcmp(words[1], "fill") == 0 ? fill(volume) : look(volume);
}
