/* JSON read and written again (cJSON). */
#include "unit.h"
#include "cJSON.c"
int main(void) {
    int n = read_input();
    in[n] = 0;
    cJSON *j = cJSON_ParseWithLength((char *)in, n);
    if (!j) return 1;
    char *s = cJSON_Print(j);
    if (!s) return 2;
    put_text(s);
    cJSON_Delete(j);
    return 0;
}
