/*@ requires x > -2147483648;
    assigns \nothing;
    behavior positive: assumes x > 0; ensures \result == 1;
    behavior zero: assumes x == 0; ensures \result == 0;
    behavior negative: assumes x < 0; ensures \result == -1;
    complete behaviors;
    disjoint behaviors; */
int sign(int x) {
  if (x > 0) return 1;
  if (x < 0) return -1;
  return 0;
}

/*@ behavior small: assumes x <= 10; ensures \result <= 10;
    behavior large: assumes x >= 10; ensures \result >= 10;
    complete behaviors small, large;
    disjoint behaviors small, large; */
int same(int x) { return x; }
