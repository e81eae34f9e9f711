// (beside main_again.c)
extern int depth;
int main(void);
int again(int n) { return depth < 2 && n == 1 ? main() : n; }
