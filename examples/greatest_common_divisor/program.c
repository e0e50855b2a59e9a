/* Finds the greatest common divisor of two numbers, puts it out in decimal, and exits with it. */

static volatile unsigned numbers[2] = {1071, 462};

/* Services of the machine: x17 says which, x10 is the argument. */
static void put(char byte) {
  register unsigned argument asm("a0") = (unsigned char)byte;
  register unsigned service asm("a7") = 1000;
  asm volatile("ecall" : "+r"(argument) : "r"(service));
}

static void leave(unsigned value) {
  register unsigned argument asm("a0") = value;
  register unsigned service asm("a7") = 93;
  asm volatile("ecall" : : "r"(argument), "r"(service));
}

static unsigned remainder_of(unsigned a, unsigned b) {
  while (a >= b)
    a -= b;
  return a;
}

static unsigned common_divisor(unsigned a, unsigned b) {
  while (b != 0) {
    unsigned rest = remainder_of(a, b);
    a = b;
    b = rest;
  }
  return a;
}

static void put_decimal(unsigned n) {
  char digits[10];
  int count = 0;
  do {
    unsigned quotient = 0;
    unsigned rest = n;
    while (rest >= 10) {
      rest -= 10;
      quotient++;
    }
    digits[count++] = (char)('0' + rest);
    n = quotient;
  } while (n != 0);
  while (count > 0)
    put(digits[--count]);
  put('\n');
}

void _start(void) {
  unsigned found = common_divisor(numbers[0], numbers[1]);
  put_decimal(found);
  leave(found);
}
