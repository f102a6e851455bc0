/* What <string> asks of locales: names, in templates that nobody makes functions of. */
#ifndef GEYSERPAN_LOCALEFWD_H
#define GEYSERPAN_LOCALEFWD_H

#include <cctype>
#include <iosfwd>

namespace std {
class locale;
template <typename Char> class ctype;
template <typename Facet> const Facet &use_facet(const locale &);
} // namespace std

#endif
