/* Peterson's lock for two harts, of loads and stores alone: it keeps them apart only where every hart sees one order of one memory.
   Each adds 1 to a counter five times; hart 0 waits for the other and exits with the counter. */

static volatile unsigned wants[2];
static volatile unsigned turn;
static volatile unsigned counter;
static volatile unsigned finished[2];

/* Ends the hart with this value: service 93 of the machine, asked for in x17, with its argument in x10. */
static void leave(unsigned value) {
  register unsigned argument asm("a0") = value;
  register unsigned service asm("a7") = 93;
  asm volatile("ecall" : : "r"(argument), "r"(service));
}

static void take(unsigned hart) {
  wants[hart] = 1;
  turn = 1 - hart;
  while (wants[1 - hart] && turn == 1 - hart)
    ;
}

static void give_back(unsigned hart) { wants[hart] = 0; }

/* A hart begins with its number. Those that aren't the two end at once. */
void _start(unsigned hart) {
  if (hart > 1)
    leave(hart);
  for (int i = 0; i < 5; i++) {
    take(hart);
    counter = counter + 1;
    give_back(hart);
  }
  finished[hart] = 1;
  if (hart == 0) {
    while (!finished[1])
      ;
    leave(counter);
  }
  leave(hart);
}
