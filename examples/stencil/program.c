/* Heat in a ring of cells. Each hart has sixteen of them; in each of four steps it makes the new value of a cell from its own and its
   two neighbours' old ones, and then all harts wait for one another. Hart 0 exits with the sum of all cells. */

enum { STEPS = 4, OWN = 16, MOST_HARTS = 64 };

static volatile unsigned cells[2][MOST_HARTS * OWN] __attribute__((aligned(16)));
static volatile unsigned arrived __attribute__((aligned(16)));
static volatile unsigned step_done __attribute__((aligned(16)));

/* Ends the hart with this value: service 93 of the machine, asked for in x17, with its argument in x10. */
static void leave(unsigned value) {
  register unsigned argument asm("a0") = value;
  register unsigned service asm("a7") = 93;
  asm volatile("ecall" : : "r"(argument), "r"(service));
}

/* Waits until all harts have done so many steps, where so many have to arrive for that. */
static void wait_for_all(unsigned step, unsigned arrivals) {
  if (__atomic_add_fetch(&arrived, 1, __ATOMIC_SEQ_CST) == arrivals)
    step_done = step;
  while (step_done < step)
    ;
}

/* A hart begins with its number and the number of harts. */
void _start(unsigned hart, unsigned harts) {
  unsigned all = harts * OWN;
  unsigned first = hart * OWN;
  unsigned arrivals = harts;
  cells[0][first] = 1024;
  wait_for_all(1, arrivals);
  for (unsigned step = 1; step <= STEPS; step++) {
    volatile unsigned *old = cells[(step + 1) & 1];
    volatile unsigned *new = cells[step & 1];
    for (unsigned cell = first; cell < first + OWN; cell++) {
      unsigned left = old[cell == 0 ? all - 1 : cell - 1];
      unsigned right = old[cell + 1 == all ? 0 : cell + 1];
      new[cell] = (left + 2 * old[cell] + right) / 4;
    }
    arrivals += harts;
    wait_for_all(step + 1, arrivals);
  }
  unsigned sum = 0;
  if (hart == 0)
    for (unsigned cell = 0; cell < all; cell++)
      sum += cells[STEPS & 1][cell];
  leave(hart == 0 ? sum : hart);
}
