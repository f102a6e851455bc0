/* XML read and written again (mxml). */
#include "unit.h"
#include "mxml_all.h"
static char to[32768];
int main(void) {
    int n = read_input();
    in[n] = 0;
    mxml_node_t *t = mxmlLoadString(NULL, (char *)in, MXML_OPAQUE_CALLBACK);
    if (!t) return 1;
    int m = mxmlSaveString(t, to, sizeof to, MXML_NO_CALLBACK);
    if (m < 0) return 2;
    put_text(to);
    mxmlDelete(t);
    return 0;
}
