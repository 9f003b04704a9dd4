// Makes the writes and syncs on a file that a trace names, one a line: `w OFFSET LENGTH` and `s`; with zeros for the
// bytes.
#include <fcntl.h>
#include <stdio.h>
#include <stdlib.h>
#include <unistd.h>

enum { MOST = 1 << 21 };

int main(int count, char **words) {
  int file = count == 2 ? open(words[1], O_RDWR) : -1;
  char *bytes = calloc(1, MOST);
  char kind;
  long offset, length;
  if (file < 0 || !bytes) return 1;
  while (scanf(" %c", &kind) == 1) {
    if (kind == 's') {
      if (fdatasync(file)) return 1;
    } else if (scanf("%ld %ld", &offset, &length) != 2 || length > MOST || pwrite(file, bytes, length, offset) != length) {
      return 1;
    }
  }
  return 0;
}
