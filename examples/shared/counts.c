#include "counts.h"

#include <stdio.h>

void counts_add(struct counts *counts, const wosthile_fed *fed)
{
    counts->arrived += fed->arrived;
    counts->sent += fed->sent;
}

bool counts_same(const struct counts *one, const struct counts *other)
{
    return one->arrived == other->arrived && one->sent == other->sent;
}

void counts_print(const char *before, const struct counts *counts, const char *behind)
{
    printf("%s%zu arrived, %zu sent%s", before, counts->arrived, counts->sent, behind);
}
