/* The program that the session with lldb debugs. */
#include <stdio.h>

struct item {
    const char *name;
    int price;
};

static int total(const struct item *items, int count) {
    int result = 0;
    for (int i = 0; i < count; i++) {
        result += items[i].price;
    }
    return result;
}

int main(void) {
    struct item items[] = {{"tea", 3}, {"milk", 4}};
    printf("total %d\n", total(items, 2));
    return 0;
}
