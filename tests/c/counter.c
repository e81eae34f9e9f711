// The least loop: it doesn't look at its number, and the compiler warns of that.
//> end done 10
//> n 00000 0a000000
// image: --epochs 10
unsigned n;
void body(unsigned epoch) { n++; }
