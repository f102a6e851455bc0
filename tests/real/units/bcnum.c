/* Decimals of any length (bc): a line has two numbers and an operation. */
#include "unit.h"
#include "number.c"
void rt_warn(const char *text, ...) { puts(text); }
void rt_error(const char *text, ...) { puts(text); }
void out_of_memory(void) { exit(3); }
static void out(int c) { putchar(c); }
static bc_num number(const char *text, int n) {
    char s[80];
    int point = 0, scale = 0, k = 0;
    for (int i = 0; i < n && k < 79; i++) {
        int c = (unsigned char)text[i];
        if (c == '.' && point++) break;
        if (point && isdigit(c)) scale++;
        if (isdigit(c) || c == '.' || (c == '-' && !k)) s[k++] = c;
    }
    s[k] = 0;
    bc_num it;
    bc_init_num(&it);
    bc_str2num(&it, s, scale);
    return it;
}
static void line(const char *text, int n) {
    int k = 0;
    while (k < n && !strchr("+*/%^s<", text[k])) k++;
    if (k == n) return;
    bc_num a = number(text, k), b = number(text + k + 1, n - k - 1), c, d;
    bc_init_num(&c);
    bc_init_num(&d);
    switch (text[k]) {
    case '+': bc_add(a, b, &c, 3); bc_sub(a, b, &d, 0); break;
    case '*': bc_multiply(a, b, &c, 30); break;
    case '/': if (bc_divide(a, b, &c, 25)) puts("zero"); break;
    case '%': if (bc_divmod(a, b, &c, &d, 4)) puts("zero"); break;
    case '^': if (bc_num2long(b) < 200 && bc_num2long(b) > -50) bc_raise(a, b, &c, 20); break;
    case 's': c = bc_copy_num(a); if (!bc_sqrt(&c, 30)) puts("negative"); break;
    default: putchar('0' + (bc_compare(a, b) < 0)); break;
    }
    bc_out_num(c, 10, out, 1);
    putchar(' ');
    bc_out_num(d, 16, out, 0);
    putchar('\n');
    bc_free_num(&a);
    bc_free_num(&b);
    bc_free_num(&c);
    bc_free_num(&d);
}
int main(void) {
    int n = read_input(), at = 0;
    bc_init_numbers();
    for (int i = 0; i < n; i++)
        if (in[i] == '\n') {
            line((char *)in + at, i - at);
            at = i + 1;
        }
    return 0;
}
