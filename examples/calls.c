/*@ requires 0 <= a <= 1000;
    assigns \nothing;
    ensures \result == a + 1; */
int next(int a) { return a + 1; }

/*@ requires 0 <= a <= 999;
    assigns \nothing;
    ensures \result == a + 2; */
int second(int a) {
  int b = next(a);
  return next(b);
}

int careless(int a) { return next(a); }
