// A volume of 65000 element pages that 4096 irregular series of one integer share, all in one container: 15 or 17 pages
// each.
#include "volume.h"

enum { CELL = 14, ROOM = 290, PAGES = 65536, USED = 65000, SERIES = 4096, SLOT = 94, IN_PAGE = 43, FIRST_SERIES_PAGE = 834,
       EACH = 15, WITH_TWO_MORE = (USED - EACH * SERIES) / 2 };

// One minute in units of 10 microseconds.
static const int64_t minute = 6000000;

static int fill_definitions(int volume) {
  if (!write_head(volume, PAGES)) return 1;
  if (!write_container(volume, PAGES)) return 1;
  for (uint32_t first = 0; first < SERIES; first += IN_PAGE) {
    for (uint32_t i = 0; i < IN_PAGE && first + i < SERIES; i++) {
      unsigned char *slot = page + SLOT * i;
      char key[16];
      snprintf(key, sizeof key, "meter %u", first + i);
      slot[0] = 2; slot[1] = strlen(key); memcpy(slot + 2, key, slot[1]);
    }
    if (!write_page(volume, FIRST_SERIES_PAGE + first / IN_PAGE)) return 1;
  }
  return 0;
}

// Pages of 145 and 146 elements in turn: two neighbours hold one more than a page has room for.
int main(int count, char **words) {
  int volume = count == 2 ? open(words[1], O_RDWR | O_CREAT | O_TRUNC, 0644) : -1;
  if (volume < 0 || ftruncate(volume, (off_t)(FIRST + PAGES) * PAGE) || fill_definitions(volume)) return 1;
  uint32_t number = FIRST;
  for (uint32_t series = 0; series < SERIES; series++) {
    int64_t stamp = begin;
    for (uint32_t i = 0; i < EACH + (series < WITH_TWO_MORE ? 2 : 0); i++) {
      uint32_t cells = ROOM / 2 + i % 2;
      page[0] = 2; put(page + 1, 2, series); put(page + 3, 2, cells);
      for (uint32_t cell = 0; cell < cells; cell++, stamp += minute) {
        unsigned char *at = page + HEAD + cell * CELL;
        at[0] = 1; put(at + 1, 8, stamp); at[9] = 1; put(at + 10, 4, cell);
      }
      if (!write_page(volume, number++)) return 1;
    }
  }
  return fsync(volume);
}
