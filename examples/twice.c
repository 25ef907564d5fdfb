/*@ requires 0 <= n <= 1000;
    assigns \nothing;
    ensures \result == 2 * n; */
int twice(int n) {
  int s = 0;
  int i = 0;
  /*@ loop invariant 0 <= i <= n;
      loop invariant s == 2 * i;
      loop assigns i, s;
      loop variant n - i; */
  while (i < n) {
    s += 2;
    i++;
  }
  return s;
}
