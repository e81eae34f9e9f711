//! needs 28\d+ bytes of memory, and 1048576 is the most; --heap and --stack may take less
int large[600000];
int main(void) { for (int i = 0; i < 5; i++) large[i] = i; return 0; }
