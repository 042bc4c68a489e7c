#include <stdio.h>
int main(void) { puts("heard"); return 0; }
