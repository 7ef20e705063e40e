/* Crashes with two calls under way: its list doesn't end. */
struct item {
    const struct item *next;
    int value;
};

static int last(const struct item *item) {
    return item->next ? last(item->next) : item->value;
}

int start(void) {
    const struct item list = {(const struct item *)16, 7};
    return last(&list);
}
