enum day { MON, TUE, WED, THU, FRI, SAT, SUN };

/*@ assigns \nothing;
    ensures 0 <= \result <= 8;
    behavior off: assumes d == SAT || d == SUN; ensures \result == 0; */
int hours(int d) {
  int h;
  switch (d) {
  case FRI: h = 6; break;
  case SAT:
  case SUN: h = 0; break;
  default: h = 8;
  }
  return h;
}

int hours_of(int d) {
  int h;
  switch (d) {
  case FRI: h = 6; break;
  case SAT: h = 0;
  }
  return h;
}
