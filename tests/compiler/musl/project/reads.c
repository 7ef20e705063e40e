/* Reads the first line of a file, and writes it into another one. */

#include <stdio.h>

int main(int count, char **words) {
    char line[100];
    FILE *from = count == 3 ? fopen(words[1], "r") : NULL, *to = from ? fopen(words[2], "w") : NULL;
    if (!to || !fgets(line, sizeof line, from)) return 1;
    return fputs(line, to) < 0 || fclose(to) != 0;
}
