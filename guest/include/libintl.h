/* Translated messages: there are none, so each text stands for itself. */
#ifndef NESTED_LIBINTL_H
#define NESTED_LIBINTL_H

#ifdef __cplusplus
extern "C" {
#endif

char *gettext(const char *text) __attribute__((__format_arg__(1)));
char *dgettext(const char *domain, const char *text) __attribute__((__format_arg__(2)));
char *dcgettext(const char *domain, const char *text, int category) __attribute__((__format_arg__(2)));
char *ngettext(const char *one, const char *many, unsigned long count) __attribute__((__format_arg__(1), __format_arg__(2)));
char *dngettext(const char *domain, const char *one, const char *many, unsigned long count)
    __attribute__((__format_arg__(2), __format_arg__(3)));
char *dcngettext(const char *domain, const char *one, const char *many, unsigned long count, int category)
    __attribute__((__format_arg__(2), __format_arg__(3)));
char *textdomain(const char *domain);
char *bindtextdomain(const char *domain, const char *folder);
char *bind_textdomain_codeset(const char *domain, const char *codeset);

#ifdef __cplusplus
}
#endif

#endif
