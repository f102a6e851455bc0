/* accepted */
#include "plug.h"
__attribute__((noinline)) static int need(void){ int c=get(); if(c<0) quit(0); return c; }
int main(void){ for(int i=0;i<10000;i++){int a=need(); int b=need(); put(a>b?a:b);} return 1; }
