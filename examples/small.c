/*@ requires a < 5;
    ensures \result < 5; */
int small(int a) { return a; }
