// What a check of the largest volume has to do at least, with as many judges as there are processors: read each page,
// one thread alone, in lists of 4096; look at each cell once, every judge at its part of a list; and keep a directory
// of 24 bytes a page.
#include "volume.h"
#include <pthread.h>

enum { CELL = 14, ROOM = 290, PAGES = 65536, LIST = 4096, JUDGES = 64 };

struct place {
  int64_t at;
  uint32_t page, count, slot, next;
};

// A part of a list: the pages from one to another, and what is found of them.
struct part {
  uint32_t first, from, to, used, cells;
  int bad;
};

static unsigned char list[LIST][PAGE];
static struct place found[LIST], places[PAGES];
static struct part parts[JUDGES];
static pthread_barrier_t begins, ends;
static int judges, over;

static void judge(struct part *part) {
  part->used = part->cells = 0;
  for (uint32_t i = part->from; i < part->to; i++) {
    const unsigned char *page = list[i];
    if (page[0] == 0) continue;
    uint32_t count = get(page + 3, 2);
    int64_t last = INT64_MIN;
    if (page[0] != 2 || count > ROOM) { part->bad = 1; return; }
    for (uint32_t cell = 0; cell < count; cell++, part->cells++) {
      const unsigned char *at = page + HEAD + cell * CELL;
      int64_t stamp = get(at + 1, 8);
      if (at[0] != 1 || at[9] > 1 || stamp <= last || (int32_t)get(at + 10, 4) == INT32_MIN) { part->bad = 1; return; }
      last = stamp;
    }
    found[part->from + part->used++] =
      (struct place){get(page + HEAD + 1, 8), FIRST + part->first + i, count, get(page + 1, 2), 0};
  }
}

static void *work(void *word) {
  struct part *part = word;
  for (;;) {
    pthread_barrier_wait(&begins);
    if (over) return NULL;
    judge(part);
    pthread_barrier_wait(&ends);
  }
}

static int compare(const void *a, const void *b) {
  const struct place *p = a, *q = b;
  return p->at < q->at ? -1 : p->at > q->at;
}

int main(int count, char **words) {
  int volume = count == 2 ? open(words[1], O_RDONLY) : -1;
  pthread_t threads[JUDGES];
  uint32_t used = 0, cells = 0;
  if (volume < 0) return 1;
  judges = sysconf(_SC_NPROCESSORS_ONLN);
  if (judges > JUDGES) judges = JUDGES;
  pthread_barrier_init(&begins, NULL, judges);
  pthread_barrier_init(&ends, NULL, judges);
  for (int i = 1; i < judges; i++) if (pthread_create(&threads[i], NULL, work, &parts[i])) return 1;
  for (uint32_t i = 0; i < FIRST; i++) if (pread(volume, page, PAGE, (off_t)i * PAGE) != PAGE) return 1;
  for (uint32_t first = 0; first < PAGES; first += LIST) {
    for (uint32_t i = 0; i < LIST; i++) if (pread(volume, list[i], PAGE, (off_t)(FIRST + first + i) * PAGE) != PAGE) return 1;
    for (int i = 0; i < judges; i++) {
      parts[i].first = first;
      parts[i].from = (uint64_t)LIST * i / judges;
      parts[i].to = (uint64_t)LIST * (i + 1) / judges;
    }
    pthread_barrier_wait(&begins);
    judge(&parts[0]);
    pthread_barrier_wait(&ends);
    for (int i = 0; i < judges; i++) {
      if (parts[i].bad) return 1;
      memcpy(places + used, found + parts[i].from, parts[i].used * sizeof *places);
      used += parts[i].used;
      cells += parts[i].cells;
    }
  }
  over = 1;
  pthread_barrier_wait(&begins);
  for (int i = 1; i < judges; i++) pthread_join(threads[i], NULL);
  qsort(places, used, sizeof *places, compare);
  printf("%u pages, %u elements\n", used, cells);
  return 0;
}
