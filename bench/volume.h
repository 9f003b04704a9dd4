// Volumes written by hand: pages, numbers and names in their bytes.
#include <fcntl.h>
#include <stdint.h>
#include <stdio.h>
#include <stdlib.h>
#include <string.h>
#include <unistd.h>

enum { PAGE = 4096, FIRST = 930, HEAD = 32 };

// 2011-01-03 00:00:00 in units of 10 microseconds.
static const int64_t begin = 129401280000000;

static unsigned char page[PAGE];

static inline void put(unsigned char *at, int bytes, uint64_t number) {
  while (bytes--) { at[bytes] = number; number >>= 8; }
}

static inline uint64_t get(const unsigned char *at, int bytes) {
  uint64_t number = 0;
  while (bytes--) number = number << 8 | *at++;
  return number;
}

static inline void name(unsigned char *at, const char *text) {
  *at = strlen(text);
  memcpy(at + 1, text, *at);
}

static inline int write_page(int volume, off_t number) {
  int wrote = pwrite(volume, page, PAGE, number * PAGE) == PAGE;
  memset(page, 0, PAGE);
  return wrote;
}

// The header of a volume of so many element pages, and in the first slot the row type of one integer.
static inline int write_head(int volume, uint32_t pages) {
  memcpy(page, "TSVOLUME\2", 9);
  put(page + 9, 4, pages);
  if (!write_page(volume, 0)) return 0;
  page[0] = 1; name(page + 1, "reading"); name(page + 34, "t"); page[67] = 1; page[68] = 2; name(page + 71, "wh");
  return write_page(volume, 257);
}

// In the first slot a container of that row type, with this quota.
static inline int write_container(int volume, uint32_t quota) {
  page[0] = 1; name(page + 1, "meters"); put(page + 35, 4, quota);
  return write_page(volume, 833);
}
