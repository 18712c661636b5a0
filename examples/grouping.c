int main(void) {
    int a = 10;
    int b = 4;
    int c = 3;
    assert(a - b - c == 3);
    assert(a - b + c == 9);
    return 0;
}
