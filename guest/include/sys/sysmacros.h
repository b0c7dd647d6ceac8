/* The parts of a device's number. */
#ifndef NESTED_SYS_SYSMACROS_H
#define NESTED_SYS_SYSMACROS_H

#define major(device) ((int)((unsigned)(device) >> 8 & 0xff))
#define minor(device) ((int)((unsigned)(device) & 0xff))
#define makedev(major, minor) ((dev_t)(((major) & 0xff) << 8 | ((minor) & 0xff)))

#endif
