int main(void) {
    int price = 7;
    int paid = 5;
    int change = paid - price;
    assert(change == 2);
    return 0;
}
