/* accepted */
#include "plug.h"
#define N 8
static int a[N][N],b[N][N],m[N][N];
int main(void){ for(int i=0;i<N;i++)for(int j=0;j<N;j++){a[i][j]=get(); b[j][i]=get();}
 for(int i=0;i<N;i++)for(int j=0;j<N;j++){int s=0; for(int k=0;k<N;k++) s+=a[i][k]*b[k][j]; m[i][j]=s;}
 for(int i=0;i<N;i++){for(int j=0;j<N;j++){put('a'+(m[i][j]&15));} put(10);} return 0; }
