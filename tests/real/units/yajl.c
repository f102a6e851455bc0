/* JSON formatted as it is read (yajl). */
#include "unit.h"
#include "api/yajl_parse.h"
#include "api/yajl_gen.h"
static yajl_gen g;
static int null(void *x) { return yajl_gen_null(g) == yajl_gen_status_ok; }
static int boolean(void *x, int is) { return yajl_gen_bool(g, is) == yajl_gen_status_ok; }
static int integer(void *x, long long n) { return yajl_gen_integer(g, n) == yajl_gen_status_ok; }
static int real(void *x, double n) { return yajl_gen_double(g, n) == yajl_gen_status_ok; }
static int string(void *x, const unsigned char *s, size_t n) { return yajl_gen_string(g, s, n) == yajl_gen_status_ok; }
static int open_map(void *x) { return yajl_gen_map_open(g) == yajl_gen_status_ok; }
static int close_map(void *x) { return yajl_gen_map_close(g) == yajl_gen_status_ok; }
static int open_array(void *x) { return yajl_gen_array_open(g) == yajl_gen_status_ok; }
static int close_array(void *x) { return yajl_gen_array_close(g) == yajl_gen_status_ok; }
static yajl_callbacks callbacks = {null, boolean, integer, real, NULL, string, open_map, string, close_map,
                                   open_array, close_array};
static void shown(void) {
    const unsigned char *s;
    size_t n;
    yajl_gen_get_buf(g, &s, &n);
    put_bytes(s, n);
    yajl_gen_clear(g);
}
int main(void) {
    int n = read_input();
    g = yajl_gen_alloc(NULL);
    yajl_gen_config(g, yajl_gen_beautify, 1);
    yajl_handle h = yajl_alloc(&callbacks, NULL, NULL);
    yajl_config(h, yajl_allow_comments, 1);
    yajl_status came = yajl_status_ok;
    for (int at = 0; at < n && came == yajl_status_ok; at += 50) {
        came = yajl_parse(h, in + at, n - at < 50 ? n - at : 50);
        shown();
    }
    if (came == yajl_status_ok) came = yajl_complete_parse(h);
    shown();
    if (came != yajl_status_ok) {
        unsigned char *why = yajl_get_error(h, 1, in, n);
        put_text((char *)why);
        yajl_free_error(h, why);
    }
    yajl_free(h);
    yajl_gen_free(g);
    return came != yajl_status_ok;
}
