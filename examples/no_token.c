int main(void) {
    int seven = 7;
    int eight = 08;
    assert(eight == seven + 1);
    return 0;
}
