// What an AggregateAll of the meters of bench/grid.c has to do at least: one thread reads the pages of each meter, page
// by page, and as many threads as are asked for find the sum and the count of its values.
#include "volume.h"
#include <pthread.h>

enum { CELL = 6, ROOM = 677, METERS = 1000, EACH = 52, MOST_THREADS = 64 };

struct fold {
  int64_t sum;
  uint64_t count;
};

// The pages of a meter, on their way from the one who reads to one who folds.
struct list {
  int is_full;
  uint32_t meter;
  unsigned char bytes[EACH * PAGE];
};

static struct fold folds[METERS];

// Two for each thread, so that they stay in the cache; they are taken in the order in which they came.
static struct list lists[2 * MOST_THREADS];

static uint64_t came, taken;

static int threads, has_ended;

static pthread_mutex_t lock = PTHREAD_MUTEX_INITIALIZER;

static pthread_cond_t changed = PTHREAD_COND_INITIALIZER;

static int read_pages(int volume, struct list *list, uint32_t meter) {
  list->meter = meter;
  for (uint32_t i = 0; i < EACH; i++)
    if (pread(volume, list->bytes + i * PAGE, PAGE, (off_t)(FIRST + i * METERS + meter) * PAGE) != PAGE) return 0;
  return 1;
}

static void fold(const struct list *list) {
  struct fold fold = {0, 0};
  for (uint32_t i = 0; i < EACH; i++) {
    const unsigned char *cell = list->bytes + i * PAGE + HEAD;
    for (uint32_t n = 0; n < ROOM; n++, cell += CELL) {
      if (cell[0] != 1 || cell[1] != 1) continue;
      uint32_t value;
      memcpy(&value, cell + 2, 4);
      fold.sum += (int32_t)__builtin_bswap32(value);
      fold.count++;
    }
  }
  folds[list->meter] = fold;
}

static void *work(void *nothing) {
  pthread_mutex_lock(&lock);
  for (;;) {
    while (taken == came && !has_ended) pthread_cond_wait(&changed, &lock);
    if (taken == came) break;
    struct list *list = &lists[taken++ % (2 * threads)];
    pthread_mutex_unlock(&lock);
    fold(list);
    pthread_mutex_lock(&lock);
    list->is_full = 0;
    pthread_cond_broadcast(&changed);
  }
  pthread_mutex_unlock(&lock);
  return nothing;
}

// Reads the pages of all meters, and folds them by itself where it is alone.
static int read_all(int volume, int folding) {
  for (uint32_t meter = 0; meter < METERS; meter++) {
    struct list *list = &lists[came % (2 * threads)];
    pthread_mutex_lock(&lock);
    while (list->is_full) pthread_cond_wait(&changed, &lock);
    pthread_mutex_unlock(&lock);
    if (!read_pages(volume, list, meter)) return 0;
    if (!folding) continue;
    if (threads == 1) {
      fold(list);
      continue;
    }
    pthread_mutex_lock(&lock);
    list->is_full = 1;
    came++;
    pthread_cond_broadcast(&changed);
    pthread_mutex_unlock(&lock);
  }
  return 1;
}

// read|fold VOLUME TIMES THREADS
int main(int count, char **words) {
  if (count != 5) return 2;
  int folding = !strcmp(words[1], "fold"), volume = open(words[2], O_RDONLY);
  threads = atoi(words[4]);
  if (volume < 0 || threads < 1 || threads > MOST_THREADS) return 1;
  pthread_t workers[MOST_THREADS];
  for (int i = 0; folding && threads > 1 && i < threads; i++)
    if (pthread_create(&workers[i], 0, work, 0)) return 1;
  for (int times = atoi(words[3]); times > 0; times--)
    if (!read_all(volume, folding)) return 1;
  pthread_mutex_lock(&lock);
  has_ended = 1;
  pthread_cond_broadcast(&changed);
  pthread_mutex_unlock(&lock);
  for (int i = 0; folding && threads > 1 && i < threads; i++) pthread_join(workers[i], 0);
  struct fold all = {0, 0};
  for (uint32_t meter = 0; meter < METERS; meter++) {
    all.sum += folds[meter].sum;
    all.count += folds[meter].count;
  }
  printf("%ld in %lu\n", (long)all.sum, (unsigned long)all.count);
  return 0;
}
