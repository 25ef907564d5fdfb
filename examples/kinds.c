unsigned sum(unsigned a, unsigned b) { return a + b; }

short mean(short a, short b) { return (a + b) / 2; }

/*@ ensures 1 <= \result <= 256; */
int above(unsigned char c) { return c + 1; }

int quotient(int a, signed char b) {
  if (b == 0) return 0;
  return a / b;
}
