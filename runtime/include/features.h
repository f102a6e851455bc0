/* What headers of C++ ask of the C library: it isn't glibc. */
#ifndef GEYSERPAN_FEATURES_H
#define GEYSERPAN_FEATURES_H

#define __GLIBC_PREREQ(major, minor) 0

#endif
