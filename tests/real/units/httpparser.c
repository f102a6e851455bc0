/* Requests and answers of HTTP taken apart (http-parser). */
#include "unit.h"
#include "http_parser.c"
static int field(http_parser *p, const char *s, size_t n) {
    put('F');
    put_bytes(s, n);
    put('\n');
    return 0;
}
static int value(http_parser *p, const char *s, size_t n) {
    put('V');
    put_bytes(s, n);
    put('\n');
    return 0;
}
static int url(http_parser *p, const char *s, size_t n) {
    put('U');
    put_bytes(s, n);
    put('\n');
    return 0;
}
static int body(http_parser *p, const char *s, size_t n) {
    put('B');
    put_bytes(s, n);
    put('\n');
    return 0;
}
static int done(http_parser *p) {
    put('!');
    put('\n');
    return 0;
}
int main(void) {
    int n = read_input();
    http_parser p;
    http_parser_settings s;
    http_parser_settings_init(&s);
    s.on_header_field = field;
    s.on_header_value = value;
    s.on_url = url;
    s.on_body = body;
    s.on_message_complete = done;
    http_parser_init(&p, HTTP_BOTH);
    size_t m = http_parser_execute(&p, &s, (char *)in, n);
    put_word(m);
    put_word(HTTP_PARSER_ERRNO(&p));
    return m != n;
}
