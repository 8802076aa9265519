int getchar(void); int putchar(int); int main(void){int c; c=getchar(); while(0-1<c){putchar(c); c=getchar();} return 0;}
