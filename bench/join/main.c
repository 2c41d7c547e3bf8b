// How many cells a second a joined bank does whose parts have 100 cells each: one part alone, and 64 parts in turn.
#include <stdint.h>
#include <stdio.h>
#include <time.h>
extern uint64_t join_bench(uint32_t parts, uint32_t rounds);
static double now(void) { struct timespec p; clock_gettime(CLOCK_PROCESS_CPUTIME_ID, &p); return p.tv_sec * 1e9 + p.tv_nsec; }
static double rate(uint32_t parts, uint32_t rounds) {
  double start = now();
  if (join_bench(parts, rounds) != parts) return 0;
  return 100.0 * parts * rounds / (now() - start);
}
int main(void) {
  double one = 0, many = 0;
  for (int turn = 0; turn < 40; turn++) {
    double a = rate(1, 64000), b = rate(64, 1000);
    if (a > one) one = a;
    if (b > many) many = b;
  }
  printf("one part: %.0f million cells a second\n64 parts: %.0f million cells a second, %.0f %%\n", one * 1e3, many * 1e3, 100 * many / one);
}
