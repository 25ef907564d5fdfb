/*@ predicate in_range(integer x, integer n) = 0 <= x < n;
    logic integer mirrored(integer x, integer n) = n - 1 - x; */

/*@ requires in_range(x, n);
    assigns \nothing;
    ensures \result == mirrored(x, n) && in_range(\result, n); */
int mirror(int x, int n) { return n - 1 - x; }
