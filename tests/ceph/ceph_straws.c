/* usage: ceph_straws <LINES

   Bounds logarithms of draws by decisions of Ceph's own crush_do_rule. Each line is
   `DRAW DELAY YARD OTHER`: a draw with its delay, as it is said to be, and another draw with its
   own, by which the first is measured. Of two straws Ceph takes the first where
   floor(delay / weight) is no greater than floor(other delay / other weight). The program finds
   weights by which that says that the delay is below a number close above it, and weights by which
   it says that the delay isn't below a number close below it; it asks Ceph both, with devices that
   have these draws, and writes `DRAW LEAST PAST`: LEAST <= delay < PAST. Where Ceph decides
   otherwise it writes `DRAW no`. */
#include "../../bench/ceph_crush.h"

enum { GREATEST = 0x7fffffff, TRIED = 16384, DRAWS = 65536, DEVICES = 1 << 21, INPUT = 0 };

void crush_destroy(struct crush_map *map);
uint32_t crush_hash32_3(int type, uint32_t a, uint32_t b, uint32_t c);

static uint32_t *reweights;

/* Whether Ceph takes the first of two straws. */
static int takes_first(int item, uint64_t weight, int other, uint64_t other_weight) {
  struct crush_map *map = new_map();
  int items[] = {item, other}, weights[] = {(int)weight, (int)other_weight}, got;
  add(map, STRAW2, -1, 1, 2, items, weights);
  int rule = rule_of(map, CHOOSE_FIRSTN, 1, 0);
  void *room = finished(map, (item > other ? item : other) + 1, 1);
  if (crush_do_rule(map, rule, INPUT, &got, 1, reweights, DEVICES, room, NULL) != 1) stop("a rule answered nothing");
  free(room);
  crush_destroy(map);
  return got == item;
}

/* The weight by which the other's straw gives a quotient; 0 where none does. */
static uint64_t weight_for(uint64_t yard, uint64_t quotient) {
  if (quotient == 0) return 0;
  uint64_t weight = yard / quotient;
  return 0 < weight && weight <= GREATEST && yard / weight == quotient ? weight : 0;
}

/* With a weight w of the item and a quotient q of the other, Ceph takes the item where
   delay < (q + 1) * w. Of such products up to `limit` (from it on, where above) the nearest, and
   the weights that give it. */
static uint64_t nearest(uint64_t limit, int above, uint64_t yard, uint64_t *weight, uint64_t *other) {
  uint64_t best = 0, first = (limit > yard ? limit : yard) / GREATEST + 2;
  for (uint64_t factor = first; factor < first + TRIED; factor++) {
    uint64_t w = limit / factor + (above && limit % factor != 0), product = factor * w;
    if (w == 0 || w > GREATEST || (best && (above ? product >= best : product <= best))) continue;
    uint64_t of_other = weight_for(yard, factor - 1);
    if (of_other == 0) continue;
    best = product;
    *weight = w;
    *other = of_other;
    if (product == limit) break;
  }
  return best;
}

/* Two devices for each draw. */
static int device[DRAWS][2], devices_of[DRAWS];

static void find_devices(void) {
  for (int it = 0; it < DEVICES; it++) {
    int draw = (int)(crush_hash32_3(HASH_RJENKINS1, INPUT, (uint32_t)it, 0) & 0xffff);
    if (devices_of[draw] < 2) device[draw][devices_of[draw]++] = it;
  }
  for (int draw = 0; draw < DRAWS; draw++)
    if (devices_of[draw] < 2) stop("a draw has no two devices");
}

int main(void) {
  int draw, yard;
  unsigned long long delay, measure;
  find_devices();
  reweights = all_in(DEVICES);
  while (scanf("%d %llu %d %llu", &draw, &delay, &yard, &measure) == 4) {
    if (draw < 0 || draw >= DRAWS || yard < 0 || yard >= DRAWS) stop("no such draw");
    int item = device[draw][0], other = device[yard][1];
    uint64_t weight = 0, of_other = 0, past = nearest(delay + 1, 1, measure, &weight, &of_other);
    if (past == 0) stop("no weights say that a delay is small");
    int right = takes_first(item, weight, other, of_other);
    uint64_t least = nearest(delay, 0, measure, &weight, &of_other);
    if (least) right = right && !takes_first(item, weight, other, of_other);
    if (right) printf("%d %llu %llu\n", draw, (unsigned long long)least, (unsigned long long)past);
    else printf("%d no\n", draw);
  }
  return 0;
}
