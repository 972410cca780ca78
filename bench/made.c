// Writes the script of a number, as docs/OPTIONS.md defines it: bench/made pipes it into the program.
#include <inttypes.h>
#include <stdio.h>
#include <stdlib.h>

static uint64_t state;
static const uint64_t increment = 1 * 2 + 1;

static void advance(void) { state = state * 6364136223846793005u + increment; }

// The next word of the generator, modulo m.
static uint32_t draw(uint32_t m) {
  uint64_t s = state;
  advance();
  uint32_t turn = s >> 59;
  uint32_t word = ((s >> 18) ^ s) >> 27;
  return ((word >> turn) | (word << (-turn & 31))) % m;
}

static void line(void) {
  uint32_t p = 1 + draw(8), a = draw(16), b = draw(16), row = draw(16), x = draw(1000);
  printf("%" PRIu32 " ", p);
  switch (row) {
  case 0: printf("set %u %u\n", a, x); break;
  case 1: printf("set %u [%u,a,b]\n", a, x); break;
  case 2: printf("set %u {pair,$%u}\n", a, b); break;
  case 3: printf("set %u #{k=>%u,n=>$%u}\n", a, x, b); break;
  case 4: printf("fill %u %u 7\n", a, x); break;
  case 5: printf("part %u %u 0 1\n", a, b); break;
  case 6: printf("hd %u %u\n", a, b); break;
  case 7: printf("elem %u 2 %u\n", a, b); break;
  case 8: printf("send %u %u\n", a, 1 + x % 8); break;
  case 9:
  case 10: printf("recv %u\n", a); break;
  case 11: printf("print %u\n", a); break;
  case 12: printf("push %u\n", a); break;
  case 13: printf("pop %u\n", a); break;
  case 14: printf("lit %u base 1\n", a); break;
  default:
    switch (x % 4) {
    case 0: printf("gc minor\n"); break;
    case 1: printf("gc major\n"); break;
    case 2: printf("cmp %u %u\n", a, b); break;
    default: printf("flat %u\n", a); break;
    }
  }
}

int main(int count, char **words) {
  state = (count > 1 ? strtoull(words[1], NULL, 10) : 1) + increment;
  advance();
  for (int i = 0; i < 7; i++)
    printf("sys spawn\n");
  printf("sys load base {lit,[1,2,3]} ; #{k=>v}\n");
  for (int i = 0; i < 99992; i++)
    line();
  return 0;
}
