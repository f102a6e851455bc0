/* The events of YAML (libyaml). */
#include "unit.h"
#include "yaml.h"
int main(void) {
    int n = read_input();
    yaml_parser_t p;
    yaml_event_t e;
    int done = 0;
    if (!yaml_parser_initialize(&p)) return 2;
    yaml_parser_set_input_string(&p, in, n);
    while (!done) {
        if (!yaml_parser_parse(&p, &e)) {
            put_word(p.error);
            return 1;
        }
        put('A' + e.type);
        if (e.type == YAML_SCALAR_EVENT) put_bytes(e.data.scalar.value, e.data.scalar.length);
        put('\n');
        done = e.type == YAML_STREAM_END_EVENT;
        yaml_event_delete(&e);
    }
    return 0;
}
