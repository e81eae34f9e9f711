//! clang: .*unusable_throw.cpp:2:\d+: error: cannot use 'throw' with exceptions disabled
int main(int argc, char **) { for (int i = 0; i < 5; i++) if (argc > i + 1) throw i; return 0; }
