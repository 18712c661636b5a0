#define TWICE(x) ((x) + (x))

int main(void) {
    assert(TWICE(2) == 4);
    return 0;
}
