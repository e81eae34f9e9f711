//! clang: .*unusable_library.cpp:2:\d+: fatal error: 'iostream' file not found
#include <iostream>
int main() { for (int i = 0; i < 5; i++) std::cout << i; return 0; }
