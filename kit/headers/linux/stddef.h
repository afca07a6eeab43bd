/* Stands in for the kernel's <linux/stddef.h>, which defines a macro with a named variable argument (GNU C), a bad directive
   that every header of sockets reaches. The members of a group stand in the structure itself; the group's own name and its tag
   are not there, so a program that uses them is told `no member`. */
#ifndef CSCOUT_LINUX_STDDEF_H
#define CSCOUT_LINUX_STDDEF_H

#define __always_inline inline
#define __struct_group(__tag, __name, __attrs, ...) __VA_ARGS__
#define __DECLARE_FLEX_ARRAY(__type, __name) __type __name[]

#endif
