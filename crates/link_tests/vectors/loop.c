/* A loop of more rounds than a program has slots for. */
long filter(const void *context, const unsigned char *block)
{
    unsigned sum = 0;

    for (int i = 0; i < 4096; i++)
        sum = sum * 31 ^ block[i];
    return sum & 1;
}
