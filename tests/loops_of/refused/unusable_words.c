//! --args takes 30 words and 888 bytes at most
// options: '--args=1 2 3 4 5 6 7 8 9 10 11 12 13 14 15 16 17 18 19 20 21 22 23 24 25 26 27 28 29 30 31'
int main(int argc, char **argv) { int s = 0; for (int i = 0; i < argc; i++) s += argv[i][0]; return s & 1; }
