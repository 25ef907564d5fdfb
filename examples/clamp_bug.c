int clamp(int x, int lo, int hi) {
  int r;
  if (x < lo) { r = lo; }
  else if (hi < x) { r = hi; }
  return r;
}
