int count;
int limit = 100;

/*@ requires count < limit;
    assigns count \from count;
    ensures count == \old(count) + 1; */
void tick(void) { count++; }

/*@ requires count < limit - 1;
    assigns count;
    ensures count == \old(count) + 2; */
void tick_twice(void) {
  tick();
  tick();
}

/*@ assigns count; */
void reset(void) {
  count = 0;
  limit = 0;
}
