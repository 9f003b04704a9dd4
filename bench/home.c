// Reads the journal of a volume and writes its pages to their places: what an opening has to do at least.
#include <fcntl.h>
#include <stdint.h>
#include <stdio.h>
#include <string.h>
#include <unistd.h>

enum { PAGE = 4096, REGION = 256 * PAGE, HEAD = 32 };

static unsigned char journal[REGION], zeros[HEAD];

static uint32_t number(const unsigned char *at) {
  return (uint32_t)at[0] << 24 | (uint32_t)at[1] << 16 | (uint32_t)at[2] << 8 | at[3];
}

int main(int count, char **words) {
  int volume = count == 2 ? open(words[1], O_RDWR) : -1;
  if (volume < 0 || pread(volume, journal, REGION, PAGE) != REGION) return 1;
  uint32_t position = 0, entries = 0;
  while (position + 12 <= REGION && memcmp(journal + position, "GATEOPEN", 8) == 0) {
    uint32_t length = number(journal + position + 8), end = position + 12 + length;
    if (length > REGION - 20 - position) return 1;
    for (uint32_t at = position + 12; at < end; entries++) {
      int is_image = journal[at] == 1;
      off_t place = (off_t)number(journal + at + 1) * PAGE;
      size_t bytes = is_image ? PAGE : HEAD;
      if (pwrite(volume, is_image ? journal + at + 5 : zeros, bytes, place) != (ssize_t)bytes) return 1;
      at += is_image ? 5 + PAGE : 5;
    }
    position = end;
  }
  if (fsync(volume) || pwrite(volume, zeros, 8, PAGE) != 8 || fsync(volume)) return 1;
  printf("%u\n", entries);
  return 0;
}
