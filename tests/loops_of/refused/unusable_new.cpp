//! nothing defines operator delete\(void\*\), operator new\(unsigned int\); give the source that does
int main() { int s = 0; for (int i = 0; i < 5; i++) { int *volatile n = new int(i); s += *n; delete n; } return s; }
