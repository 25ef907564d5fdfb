/*@ logic integer sum(integer n) = n <= 0 ? 0 : sum(n - 1) + n; */

/*@ requires n <= 0; ensures \result == sum(n); */
int none(int n) { return 0; }

/*@ requires n > 0; ensures \result == sum(n) - sum(n - 1); */
int last(int n) { return n; }

/*@ ensures \result == sum(n); */
int wrong(int n) { return 0; }
