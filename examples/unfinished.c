int main(void) {
    int x = 3;
    assert(x == 3);
    return
}
