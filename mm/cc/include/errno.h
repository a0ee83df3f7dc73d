#ifndef _ERRNO_H
#define _ERRNO_H
extern int errno;
#define ENOMEM 12
#define EINVAL 22
#define ERANGE 34
#endif
