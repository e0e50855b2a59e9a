/* Each hart adds 1 to a counter twice, under a lock of tickets: AMOADD draws one, and a hart waits until it is served. */

/* Each in an item of its own. */
static volatile unsigned next_ticket __attribute__((aligned(16)));
static volatile unsigned served __attribute__((aligned(16)));
static volatile unsigned counter __attribute__((aligned(16)));
static volatile unsigned done __attribute__((aligned(16)));

/* Ends the hart with this value: service 93 of the machine, asked for in x17, with its argument in x10. */
static void leave(unsigned value) {
  register unsigned argument asm("a0") = value;
  register unsigned service asm("a7") = 93;
  asm volatile("ecall" : : "r"(argument), "r"(service));
}

static void take(void) {
  unsigned ticket = __atomic_fetch_add(&next_ticket, 1, __ATOMIC_SEQ_CST);
  while (served != ticket)
    ;
}

static void give_back(void) { served = served + 1; }

/* A hart begins with its number and the number of harts. */
void _start(unsigned hart, unsigned harts) {
  for (int i = 0; i < 2; i++) {
    take();
    counter = counter + 1;
    give_back();
  }
  __atomic_fetch_add(&done, 1, __ATOMIC_SEQ_CST);
  if (hart == 0) {
    while (done != harts)
      ;
    leave(counter);
  }
  leave(hart);
}
