/* What the programs here call of Ceph's libceph-common. Its headers for CRUSH aren't packaged,
   so the struct stands here as Ceph 16 (Debian's librados2 16.2) lays it out; finished() stops
   where the library has another one. */
#include <stdint.h>
#include <stdio.h>
#include <stdlib.h>
#include <time.h>

enum { UNIFORM = 1, LIST = 2, TREE = 3, STRAW2 = 5 };
enum { HASH_RJENKINS1 = 0 };
enum { TAKE = 1, CHOOSE_FIRSTN = 2, CHOOSE_INDEP = 3, EMIT = 4, CHOOSELEAF_FIRSTN = 6, CHOOSELEAF_INDEP = 7 };
enum { SET_CHOOSE_TRIES = 8, SET_CHOOSELEAF_TRIES = 9, SET_CHOOSELEAF_VARY_R = 12, SET_CHOOSELEAF_STABLE = 13 };
enum { NO_ITEM = 0x7fffffff }; /* none, in an answer of an indep step */
enum { ONE = 0x10000 }; /* a weight of 1.0 */

struct crush_map {
  void **buckets, **rules;
  int32_t max_buckets;
  uint32_t max_rules;
  int32_t max_devices;
  uint32_t choose_local_tries, choose_local_fallback_tries, choose_total_tries, chooseleaf_descend_once;
  uint8_t chooseleaf_vary_r, chooseleaf_stable;
  size_t working_size;
  char rest[512];
};

struct crush_map *crush_create(void);
void crush_finalize(struct crush_map *map);
void *crush_make_bucket(struct crush_map *map, int alg, int hash, int type, int size, int *items, int *weights);
int crush_add_bucket(struct crush_map *map, int id, void *bucket, int *made);
void *crush_make_rule(int steps, int ruleset, int type, int min, int max);
void crush_rule_set_step(void *rule, int place, int op, int first, int second);
int crush_add_rule(struct crush_map *map, void *rule, int number);
void crush_init_workspace(const struct crush_map *map, void *room);
int crush_do_rule(const struct crush_map *map, int rule, int x, int *result, int max, const uint32_t *reweights, int devices,
                  void *room, const void *choose_args);

static void stop(const char *why) {
  fprintf(stderr, "%s\n", why);
  exit(1);
}

static long number(const char *text, long least, long greatest) {
  char *end;
  long n = strtol(text, &end, 10);
  if (*text == 0 || *end != 0 || n < least || n > greatest) stop("a number is out of its range");
  return n;
}

static int kind_of(const char *text) {
  return (int)number(text, UNIFORM, STRAW2);
}

static struct crush_map *new_map(void) {
  struct crush_map *map = crush_create();
  map->choose_local_tries = 0;
  map->choose_local_fallback_tries = 0;
  map->choose_total_tries = 50;
  map->chooseleaf_descend_once = 1;
  map->chooseleaf_vary_r = 1;
  map->chooseleaf_stable = 1;
  return map;
}

static void add(struct crush_map *map, int kind, int id, int type, int size, int *items, int *weights) {
  int made = 0;
  void *bucket = crush_make_bucket(map, kind, HASH_RJENKINS1, type, size, items, weights);
  if (bucket == NULL || crush_add_bucket(map, id, bucket, &made) != 0 || made != id) stop("a bucket can't be made");
}

/* The rule of three steps: take bucket -1, the step, emit. */
static int rule_of(struct crush_map *map, int op, int count, int type) {
  void *rule = crush_make_rule(3, 0, 1, 1, 10);
  crush_rule_set_step(rule, 0, TAKE, -1, 0);
  crush_rule_set_step(rule, 1, op, count, type);
  crush_rule_set_step(rule, 2, EMIT, 0, 0);
  return crush_add_rule(map, rule, -1);
}

/* Every device is in. */
static uint32_t *all_in(int devices) {
  uint32_t *reweights = malloc(sizeof *reweights * (size_t)devices);
  for (int i = 0; i < devices; i++) reweights[i] = ONE;
  return reweights;
}

static void *finished(struct crush_map *map, int devices, int results) {
  crush_finalize(map);
  if (map->max_devices != devices || map->working_size == 0 || map->working_size > (1u << 26))
    stop("this library lays its maps out in another way than Ceph 16");
  void *room = malloc(map->working_size + 3 * sizeof(int) * (size_t)results + 4096);
  crush_init_workspace(map, room);
  return room;
}

static double seconds(void) {
  struct timespec t;
  clock_gettime(CLOCK_MONOTONIC, &t);
  return (double)t.tv_sec + (double)t.tv_nsec * 1e-9;
}
