//: it is entered again from within, as where another source calls main
int depth, again(int);
int main(void)
{
    int s = 0;
    depth++;
    for (int i = 0; i < 3; i++) s += again(i);
    return s;
}
