/*@ requires a < b;
    ensures \result + b == b + a; */
int left(int a, int b) { return a; }
