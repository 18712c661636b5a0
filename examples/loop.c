int main(void) {
    int i = 0;
    while (i < 3)
        i = i + 1;
    assert(i == 3);
    return 0;
}
