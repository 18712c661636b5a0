int main(void){int x=3;x=x+1;assert(x==4);return 0;}
