/* usage: ceph_mappings <DESCRIPTIONS

   Reads descriptions of maps and writes what their rules answer by Ceph's own crush_do_rule. tests/ceph/README.md says
   what lines there are; tests/ceph/library.py writes them. */
#include "ceph_crush.h"
#include <string.h>

enum { WORDS = 1100, STEPS = 32, ITEMS = 1024, DEVICES = 65536, RESULTS = 32, RUNS = 5 };

static long line; /* the number of the line at hand */

/* The map at hand. */
static struct crush_map *map;
static int devices, steps, rule;
static int step[STEPS][3]; /* op, first, second */
static uint32_t *reweights;
static void *room; /* NULL until the map is asked */

static void refuse(const char *why) {
  fprintf(stderr, "ceph_mappings: line %ld: %s\n", line, why);
  exit(1);
}

static long value(const char *text, long least, long greatest) {
  char *end;
  long n = text ? strtol(text, &end, 10) : 0;
  if (!text || *text == 0 || *end != 0 || n < least || n > greatest) refuse("a number is missing or out of its range");
  return n;
}

static int natural(const char *text) {
  return (int)value(text, 0, INT32_MAX);
}

static int integer(const char *text) {
  return (int)value(text, INT32_MIN, INT32_MAX);
}

static int is(const char *word, const char *wanted) {
  return word && strcmp(word, wanted) == 0;
}

static void begin(void) {
  map = new_map();
  devices = steps = 0;
  reweights = all_in(DEVICES);
  room = NULL;
}

static void declare_tunables(char **word) {
  map->choose_total_tries = (uint32_t)natural(word[1]);
  map->chooseleaf_descend_once = (uint32_t)natural(word[2]);
  map->chooseleaf_vary_r = (uint8_t)natural(word[3]);
  map->chooseleaf_stable = (uint8_t)natural(word[4]);
}

static int kind_named(const char *word) {
  if (is(word, "uniform")) return UNIFORM;
  if (is(word, "list")) return LIST;
  if (is(word, "tree")) return TREE;
  if (is(word, "straw2")) return STRAW2;
  refuse("no such kind of bucket");
  return 0;
}

static void declare_bucket(char **word) {
  int size = 0, items[ITEMS], weights[ITEMS];
  for (; word[4 + size]; size++) {
    char *colon = strchr(word[4 + size], ':');
    if (!colon || size == ITEMS) refuse("no item, or too many");
    *colon = 0;
    items[size] = integer(word[4 + size]);
    weights[size] = (int)(uint32_t)value(colon + 1, 0, UINT32_MAX);
  }
  int kind = kind_named(word[3]);
  if (kind == TREE && size > 64) refuse("Ceph counts the nodes of a tree bucket in one byte");
  add(map, kind, integer(word[1]), natural(word[2]), size, items, weights);
}

static void put_step(int op, int first, int second) {
  if (steps == STEPS) refuse("too many steps");
  step[steps][0] = op;
  step[steps][1] = first;
  step[steps++][2] = second;
}

static void declare_step(char **word) {
  int leaf = is(word[1], "chooseleaf");
  if (is(word[1], "take")) put_step(TAKE, integer(word[2]), 0);
  else if (is(word[1], "set_choose_tries")) put_step(SET_CHOOSE_TRIES, natural(word[2]), 0);
  else if (is(word[1], "set_chooseleaf_tries")) put_step(SET_CHOOSELEAF_TRIES, natural(word[2]), 0);
  else if (is(word[1], "set_chooseleaf_vary_r")) put_step(SET_CHOOSELEAF_VARY_R, natural(word[2]), 0);
  else if (is(word[1], "set_chooseleaf_stable")) put_step(SET_CHOOSELEAF_STABLE, natural(word[2]), 0);
  else if ((leaf || is(word[1], "choose")) && is(word[2], "firstn"))
    put_step(leaf ? CHOOSELEAF_FIRSTN : CHOOSE_FIRSTN, integer(word[3]), natural(word[4]));
  else if ((leaf || is(word[1], "choose")) && is(word[2], "indep"))
    put_step(leaf ? CHOOSELEAF_INDEP : CHOOSE_INDEP, integer(word[3]), natural(word[4]));
  else if (is(word[1], "emit")) put_step(EMIT, 0, 0);
  else refuse("no such step");
}

static void declare(char **word) {
  if (room) refuse("the map can't be changed after a run");
  if (is(word[0], "tunables")) declare_tunables(word);
  else if (is(word[0], "devices")) devices = (int)value(word[1], 0, DEVICES);
  else if (is(word[0], "bucket")) declare_bucket(word);
  else if (is(word[0], "reweight")) reweights[value(word[1], 0, DEVICES - 1)] = (uint32_t)natural(word[2]);
  else if (is(word[0], "step")) declare_step(word);
  else refuse("can't be read");
}

static void finish(void) {
  if (room) return;
  void *made = crush_make_rule(steps, 0, 1, 1, RESULTS);
  for (int i = 0; i < steps; i++) crush_rule_set_step(made, i, step[i][0], step[i][1], step[i][2]);
  rule = crush_add_rule(map, made, -1);
  map->max_devices = devices;
  room = finished(map, devices, RESULTS);
}

static int ask(uint32_t x, int size, int *got) {
  return crush_do_rule(map, rule, (int)x, got, size, reweights, devices, room, NULL);
}

static void run(char **word) {
  int size = (int)value(word[1], 1, RESULTS), got[RESULTS];
  long first = value(word[2], 0, UINT32_MAX), count = value(word[3], 0, UINT32_MAX - first);
  for (long x = first; x < first + count; x++) {
    int found = ask((uint32_t)x, size, got);
    printf("%ld", x);
    for (int i = 0; i < found; i++)
      if (got[i] == NO_ITEM) printf(" -");
      else printf(" %d", got[i]);
    printf("\n");
  }
}

static uint64_t checksum(int size, long count) {
  uint64_t sum = 0;
  int got[RESULTS];
  for (long x = 0; x < count; x++) {
    int found = ask((uint32_t)x, size, got);
    for (int i = 0; i < found; i++) sum = sum * 31 + (uint64_t)(int64_t)got[i];
  }
  return sum;
}

static void measure(char **word) {
  int size = (int)value(word[1], 1, RESULTS);
  long count = value(word[2], 0, UINT32_MAX);
  uint64_t sum = 0;
  double shortest = 1e9;
  for (int i = 0; i < RUNS; i++) {
    double start = seconds();
    sum = checksum(size, count);
    double took = seconds() - start;
    if (took < shortest) shortest = took;
  }
  printf("%llu\n", (unsigned long long)sum);
  if (count > 0) fprintf(stderr, "%.3f\n", shortest / (double)count * 1e6);
}

static void play(char **word) {
  if (!word[0]) return;
  if (is(word[0], "map") && word[1]) {
    begin();
    printf("map %s\n", word[1]);
  } else if (is(word[0], "run")) {
    finish();
    run(word);
  } else if (is(word[0], "time")) {
    finish();
    measure(word);
  } else declare(word);
}

int main(void) {
  char *text = NULL;
  size_t capacity = 0;
  begin();
  while (getline(&text, &capacity, stdin) >= 0) {
    char *word[WORDS + 1];
    int count = 0;
    line++;
    for (char *it = strtok(text, " \r\n"); it; it = strtok(NULL, " \r\n")) {
      if (count == WORDS) refuse("too many words");
      word[count++] = it;
    }
    for (int i = count; i <= WORDS && i < count + 5; i++) word[i] = NULL;
    play(word);
  }
  return 0;
}
