/* Reads two rows of 256 numbers as 32-bit words, makes the library's three calls on them once each, and writes what they leave. Built and run by
   ring_counts.py. */
#include <stdint.h>
#include <stdio.h>

#define SIZE 256

uint32_t ring_product(const uint32_t *public, size_t, const uint32_t *row, size_t, uint32_t *out, size_t);
uint32_t ring_transform(const uint32_t *public, size_t, uint32_t *out, size_t);
uint32_t ring_product_transformed(const uint32_t *transformed, size_t, const uint32_t *row, size_t, uint32_t *out, size_t);

int main(void)
{
    uint32_t rows[2][SIZE], out[3][SIZE];
    if (fread(rows, sizeof rows, 1, stdin) != 1)
        return 2;
    uint32_t no = ring_product(rows[0], SIZE, rows[1], SIZE, out[0], SIZE);
    no |= ring_transform(rows[0], SIZE, out[1], SIZE);
    no |= ring_product_transformed(out[1], SIZE, rows[1], SIZE, out[2], SIZE);
    return no != 0 || fwrite(out, sizeof out, 1, stdout) != 1;
}
