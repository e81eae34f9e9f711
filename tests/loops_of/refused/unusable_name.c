//! nothing defines missing; give the source that does, or a program that does without
int missing(int);
int main(void) { int s = 0; for (int i = 0; i < 3; i++) s += missing(i); return s; }
