/* Loading of code: no library is found, and dlerror says so. */
#ifndef NESTED_DLFCN_H
#define NESTED_DLFCN_H

#ifdef __cplusplus
extern "C" {
#endif

#define RTLD_LAZY 1
#define RTLD_NOW 2
#define RTLD_NOLOAD 4
#define RTLD_GLOBAL 0x100
#define RTLD_LOCAL 0
#define RTLD_NODELETE 0x1000
#define RTLD_DEFAULT ((void *)0)
#define RTLD_NEXT ((void *)-1)

typedef struct {
    const char *dli_fname;
    void *dli_fbase;
    const char *dli_sname;
    void *dli_saddr;
} Dl_info;

void *dlopen(const char *path, int mode);
void *dlsym(void *library, const char *name);
void *dlvsym(void *library, const char *name, const char *version);
int dlclose(void *library);
char *dlerror(void);
int dladdr(const void *address, Dl_info *into);

#ifdef __cplusplus
}
#endif

#endif
