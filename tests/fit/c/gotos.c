/* accepted */
#include "plug.h"
int main(void){ int c,n=0; c=get(); if(c=='x') goto inside;
outside: if(n++>100000) return 1; c=get(); if(c<0) goto end; if(c!='"'){put(c); goto outside;}
inside: if(n++>100000) return 1; c=get(); if(c<0) goto end; if(c!='"'){put(c^1); goto inside;} goto outside;
end: put(10); return 0; }
