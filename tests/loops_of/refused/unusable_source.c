//! clang: .*unusable_source.c:2:\d+: error: use of undeclared identifier 'nothing'
int main(void) { return nothing; }
