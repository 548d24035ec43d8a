/* Translations of messages, of which there are none: each text stands for itself. */
#ifndef BSP_LIBC_LIBINTL_H
#define BSP_LIBC_LIBINTL_H

#pragma GCC system_header

#define gettext(text) ((char *)(text))
#define dgettext(domain, text) ((char *)(text))
#define dcgettext(domain, text, category) ((char *)(text))
#define ngettext(one, many, count) ((char *)((count) == 1 ? (one) : (many)))
#define textdomain(domain) ((char *)(domain))
#define bindtextdomain(domain, folder) ((char *)(folder))
#define bind_textdomain_codeset(domain, codes) ((char *)(codes))

#endif
