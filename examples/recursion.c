/*@ requires 0 <= n <= 1000;
    decreases n;
    assigns \nothing;
    ensures \result == 2 * n; */
int twice(int n) {
  if (n <= 0) return 0;
  return twice(n - 1) + 2;
}

/*@ decreases n;
    assigns \nothing; */
int odd(int n);

/*@ decreases n;
    assigns \nothing; */
int even(int n) {
  if (n <= 0) return 1;
  return odd(n - 1);
}

int odd(int n) {
  if (n <= 0) return 0;
  return even(n);
}
