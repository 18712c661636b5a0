#define START 3

int main(void) {
    int x = (START);
    (x) = ((x) + 1);
    assert((x) == 4);
    return 0;
}
