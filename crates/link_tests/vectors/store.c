/* Writes into the block, which can be read alone. */
long filter(const void *context, unsigned char *block, unsigned char *scratch)
{
    block[0] = 1;
    return 0;
}
