/* Each hart adds 1 to a counter twice, under a lock that LR and SC take. Hart 0 waits for all and exits with the counter. */

/* Each in an item of its own. */
static volatile unsigned lock __attribute__((aligned(16)));
static volatile unsigned counter __attribute__((aligned(16)));
static volatile unsigned done __attribute__((aligned(16)));

/* Ends the hart with this value: service 93 of the machine, asked for in x17, with its argument in x10. */
static void leave(unsigned value) {
  register unsigned argument asm("a0") = value;
  register unsigned service asm("a7") = 93;
  asm volatile("ecall" : : "r"(argument), "r"(service));
}

static void take(void) {
  unsigned seen, failed;
  do {
    asm volatile("1: lr.w %0, (%2)\n"
                 "   bnez %0, 1b\n"
                 "   sc.w %1, %3, (%2)"
                 : "=&r"(seen), "=&r"(failed)
                 : "r"(&lock), "r"(1)
                 : "memory");
  } while (failed);
}

static void give_back(void) { lock = 0; }

/* A hart begins with its number and the number of harts. */
void _start(unsigned hart, unsigned harts) {
  for (int i = 0; i < 2; i++) {
    take();
    counter = counter + 1;
    give_back();
  }
  __atomic_fetch_add(&done, 1, __ATOMIC_SEQ_CST);
  if (hart == 0) {
    while (done != harts)
      ;
    leave(counter);
  }
  leave(hart);
}
