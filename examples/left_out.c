int main(void) {
    float share = 3;
    assert(share == 3);
    return 0;
}
