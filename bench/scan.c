/* The bare scan: reads the files whole, splits them into numbers, and adds the numbers up. */
#include <stdio.h>
#include <stdlib.h>

static unsigned long long scan(const char *name)
{
    FILE *file = fopen(name, "rb");
    if (!file) { perror(name); exit(1); }
    fseek(file, 0, SEEK_END);
    long size = ftell(file);
    rewind(file);
    unsigned char *bytes = malloc((size_t)size + 1);
    if (!bytes || fread(bytes, 1, (size_t)size, file) != (size_t)size) { perror(name); exit(1); }
    fclose(file);
    unsigned long long sum = 0, value = 0;
    for (long k = 0; k < size; k++) {
        unsigned digit = bytes[k] - '0';
        if (digit < 10) { value = value * 10 + digit; continue; }
        sum += value;
        value = 0;
    }
    free(bytes);
    return sum + value;
}

int main(int count, char **names)
{
    unsigned long long sum = 0;
    for (int k = 1; k < count; k++) sum += scan(names[k]);
    printf("%llu\n", sum);
    return 0;
}
