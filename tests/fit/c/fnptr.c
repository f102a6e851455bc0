/* accepted */
#include "plug.h"
static int up(int c){return c-32;} static int same(int c){return c;} static int dot(int c){return '.';}
static int (*const f[3])(int) = {up, same, dot};
int main(void){ for(int i=0;i<1000;i++){int c=get(); if(c<0)break; put(f[c>='a'&&c<='z'?0:c<32?1:2](c));} return 0; }
