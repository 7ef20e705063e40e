/* A function of C through which exceptions pass, with what is to be cleaned up on the way. */

extern int cleaned_up;
int cleaned_up;

static void clean_up(int *number) {
    cleaned_up += *number;
}

void through_c(void (*function)(int), int number) {
    int counted __attribute__((cleanup(clean_up))) = 10;
    function(number);
    counted++;
}
