//: this run doesn't enter it
int n = 3;
int main(int argc, char **argv)
{
    if (argc > 1) for (int i = 0; i < 5; i++) n += argv[1][i];
    return n;
}
