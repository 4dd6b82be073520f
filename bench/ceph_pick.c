/* usage: ceph_pick KIND N COUNT [TRIES]     (KIND: 1 uniform, 2 list, 3 tree, 5 straw2; N items;
      inputs 0 .. COUNT-1)

   Times picks from one bucket by Ceph's own code. The library doesn't export a single pick, so
   this is crush_do_rule over a map of that one bucket with the rule `take -1; choose firstn 1
   type 0; emit`: one pick with r 0, and the rule's own work with it. With TRIES every device is
   out, so that each rule makes TRIES picks, with r 0 .. TRIES-1, and answers nothing: the rule's
   own work is spread over them. README.md says which bucket. Standard output: the checksum,
   which is 0 with TRIES. Standard error: ns a pick. */
#include "ceph_crush.h"

int main(int count, char **words) {
  if (count != 4 && count != 5) stop("usage: ceph_pick KIND N COUNT [TRIES]");
  int kind = kind_of(words[1]), items = (int)number(words[2], 1, 1024);
  long inputs = number(words[3], 1, 1L << 32), tries = count == 5 ? number(words[4], 1, 1000) : 1;
  if (kind == TREE && items > 64) stop("Ceph's tree buckets count their nodes in one byte: at most 64 items");

  struct crush_map *map = new_map();
  int item[1024], weight[1024];
  for (int i = 0; i < items; i++) {
    item[i] = i;
    weight[i] = kind == UNIFORM ? ONE : ONE * (1 + i % 4);
  }
  add(map, kind, -1, 10, items, item, weight);
  int rule = rule_of(map, CHOOSE_FIRSTN, 1, 0);
  void *room = finished(map, items, 1);
  uint32_t *reweights = all_in(items);
  if (count == 5) {
    for (int i = 0; i < items; i++) reweights[i] = 0;
    map->choose_total_tries = (uint32_t)tries - 1; /* it counts the tries after the first */
  }

  uint64_t sum = 0;
  int got;
  double start = seconds();
  for (long x = 0; x < inputs; x++) {
    int found = crush_do_rule(map, rule, (int)x, &got, 1, reweights, items, room, NULL);
    if (found != (count == 4)) stop("a rule answered as many items as it shouldn't");
    if (found) sum = sum * 31 + (uint64_t)got;
  }
  double took = seconds() - start;
  printf("%llu\n", (unsigned long long)sum);
  fprintf(stderr, "%.1f\n", took / ((double)inputs * (double)tries) * 1e9);
  return 0;
}
