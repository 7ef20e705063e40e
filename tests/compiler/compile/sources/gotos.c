/* Computed gotos: by a table of addresses, by one of distances, and by an address that is kept. */

enum { ADD, SUB, TWICE, END };

__attribute__((noinline)) static int by_addresses(const unsigned char *code) {
    static const void *const table[] = {&&add, &&sub, &&twice, &&end};
    int sum = 0;
    goto *table[*code++];
add:
    sum += *code++;
    goto *table[*code++];
sub:
    sum -= *code++;
    goto *table[*code++];
twice:
    sum *= 2;
    goto *table[*code++];
end:
    return sum;
}

__attribute__((noinline)) static int by_distances(const unsigned char *code) {
    static const int table[] = {&&add - &&add, &&sub - &&add, &&twice - &&add, &&end - &&add};
    int sum = 0;
    goto *(&&add + table[*code++]);
add:
    sum += *code++;
    goto *(&&add + table[*code++]);
sub:
    sum -= *code++;
    goto *(&&add + table[*code++]);
twice:
    sum *= 2;
    goto *(&&add + table[*code++]);
end:
    return sum;
}

__attribute__((noinline)) static int kept(int first) {
    void *next = first ? &&one : &&two;
    int count = 0;
again:
    goto *next;
one:
    count += 1;
    next = &&two;
    if (count < 10) goto again;
two:
    count += 40;
    return count;
}

int wrong(void) {
    static const unsigned char code[] = {ADD, 20, TWICE, SUB, 8, ADD, 10, END};
    return (by_addresses(code) != 42) + (by_distances(code) != 42) + (kept(1) != 41) + (kept(0) != 40);
}
