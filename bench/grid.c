// A year of quarter hours of a thousand meters as regular series of one integer, and what an opening has to do at
// least: read each page, look at each cell once, and keep a directory of 24 bytes a page.
#include "volume.h"

enum { CELL = 6, ROOM = 677, METERS = 1000, DAYS = 364, OFFSETS = DAYS * 96, EACH = (OFFSETS + ROOM - 1) / ROOM,
       PAGES = 53000, SERIES_PAGE = 834, SERIES = 94, IN_PAGE = 43 };

struct place {
  int64_t at;
  uint32_t page, count, slot, next;
};

static int fill_definitions(int volume) {
  if (!write_head(volume, PAGES)) return 1;
  // {1 on,14 off},minute
  page[0] = 1; name(page + 1, "quarters"); put(page + 34, 8, begin); put(page + 42, 8, begin); page[50] = 1; page[52] = 1; put(page + 53, 2, 2);
  put(page + 55, 4, 0x80000001); put(page + 59, 4, 14);
  if (!write_page(volume, 577)) return 1;
  if (!write_container(volume, PAGES)) return 1;
  for (uint32_t first = 0; first < METERS; first += IN_PAGE) {
    for (uint32_t i = 0; i < IN_PAGE && first + i < METERS; i++) {
      unsigned char *slot = page + SERIES * i;
      char key[16];
      snprintf(key, sizeof key, "meter %u", first + i);
      slot[0] = 1; slot[1] = strlen(key); memcpy(slot + 2, key, slot[1]); put(slot + 68, 8, begin);
    }
    if (!write_page(volume, SERIES_PAGE + first / IN_PAGE)) return 1;
  }
  return 0;
}

// The pages stand as they come in the order of time: the first of each meter, then the second of each.
static int fill(int volume) {
  if (ftruncate(volume, (off_t)(FIRST + PAGES) * PAGE) || fill_definitions(volume)) return 1;
  uint32_t number = FIRST;
  for (uint32_t base = 0; base < OFFSETS; base += ROOM)
    for (uint32_t meter = 0; meter < METERS; meter++) {
      uint32_t count = OFFSETS - base < ROOM ? OFFSETS - base : ROOM;
      page[0] = 1; put(page + 1, 2, meter); put(page + 3, 2, count); put(page + 5, 8, base);
      for (uint32_t i = 0; i < count; i++) {
        unsigned char *cell = page + HEAD + CELL * i;
        cell[0] = cell[1] = 1; put(cell + 2, 4, base + i);
      }
      if (!write_page(volume, number++)) return 1;
    }
  return fsync(volume);
}

static int look(int volume) {
  struct place *places = calloc(PAGES, sizeof *places);
  uint64_t pages = 0, elements = 0, sum = 0;
  for (uint32_t number = 0; number < FIRST + PAGES; number++) {
    if (pread(volume, page, PAGE, (off_t)number * PAGE) != PAGE) return 1;
    if (number < FIRST || page[0] != 1) continue;
    uint32_t count = 0;
    for (uint32_t i = 0; i < ROOM; i++) {
      const unsigned char *cell = page + HEAD + CELL * i;
      if (cell[0] == 1) { count++; sum += get(cell + 1, 5); }
    }
    places[pages++] = (struct place){get(page + 5, 8), number, count, get(page + 1, 2), 0};
    elements += count;
  }
  printf("%lu pages, %lu elements, %lu\n", (unsigned long)pages, (unsigned long)elements, (unsigned long)(sum + places[pages / 2].at));
  return 0;
}

int main(int count, char **words) {
  if (count != 3) return 2;
  int filling = !strcmp(words[1], "fill");
  int volume = open(words[2], filling ? O_RDWR | O_CREAT | O_TRUNC : O_RDONLY, 0644);
  if (volume < 0) return 1;
  return filling ? fill(volume) : look(volume);
}
