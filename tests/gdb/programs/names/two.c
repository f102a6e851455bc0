static int next = 900;

int doubled(int c)
{
    next += c;
    return 2 * c;
}
