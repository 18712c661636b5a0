int main(void) {
    int largest = 2147483647;
    int next = largest + 1;
    assert(next == 0 - 2147483647 - 1);
    assert(next != largest);
    return 0;
}
