// How long a cell takes in a cycle of 40 mixed cells, in ns and in cycles of the processor (a dependent addition takes one).
#include <stdint.h>
#include <stdio.h>
#include <time.h>
extern uint64_t cycle_bench(uint8_t width, uint32_t count);
static double now(void) { struct timespec p; clock_gettime(CLOCK_PROCESS_CPUTIME_ID, &p); return p.tv_sec * 1e9 + p.tv_nsec; }
static double addition(void) {
  double start = now(); uint64_t x = 1;
  for (long i = 0; i < 3000000; i++) __asm__ volatile("add $1,%0" : "+r"(x));
  return (now() - start) / 3e6;
}
int main(void) {
  int widths[] = {8, 32, 64, 128};
  for (int k = 0; k < 4; k++) {
    double best = 1e9, one = 1e9; uint64_t check = 0;
    for (int turn = 0; turn < 40; turn++) {
      double a = addition(), start = now();
      check = cycle_bench(widths[k], 20000);
      double each = (now() - start) / 20000 / 40;
      if (each < best) best = each;
      if (a < one) one = a;
    }
    printf("%3d bits: %.2f ns a cell, %.1f cycles (slot 39: %llu)\n", widths[k], best, best / one, (unsigned long long)check);
  }
}
