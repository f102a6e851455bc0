/* Of the C locale: what isn't ASCII belongs to no class. Each is a comparison or two, in the function that calls
   it. */
#ifndef GEYSERPAN_CTYPE_H
#define GEYSERPAN_CTYPE_H

#ifdef __cplusplus
extern "C" {
#endif

static __inline int isdigit(int __c) { return (unsigned)__c - '0' < 10; }
static __inline int isupper(int __c) { return (unsigned)__c - 'A' < 26; }
static __inline int islower(int __c) { return (unsigned)__c - 'a' < 26; }
static __inline int isalpha(int __c) { return ((unsigned)__c | 32) - 'a' < 26; }
static __inline int isalnum(int __c) { return isdigit(__c) || isalpha(__c); }
static __inline int isxdigit(int __c) { return isdigit(__c) || ((unsigned)__c | 32) - 'a' < 6; }
static __inline int isblank(int __c) { return __c == ' ' || __c == '\t'; }
static __inline int isspace(int __c) { return __c == ' ' || (unsigned)__c - '\t' < 5; }
static __inline int iscntrl(int __c) { return (unsigned)__c < 32 || __c == 127; }
static __inline int isprint(int __c) { return (unsigned)__c - ' ' < 95; }
static __inline int isgraph(int __c) { return (unsigned)__c - '!' < 94; }
static __inline int ispunct(int __c) { return isgraph(__c) && !isalnum(__c); }
static __inline int isascii(int __c) { return (unsigned)__c < 128; }
static __inline int tolower(int __c) { return isupper(__c) ? __c | 32 : __c; }
static __inline int toupper(int __c) { return islower(__c) ? __c & ~32 : __c; }
static __inline int toascii(int __c) { return __c & 127; }

#ifdef __cplusplus
}
#endif

#endif
