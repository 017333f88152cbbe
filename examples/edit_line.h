/* A line of text that edits the zone, as the bytes of one edit. */
#ifndef EDIT_LINE_H
#define EDIT_LINE_H

#include <stddef.h>
#include <stdint.h>

/* The most bytes that a line's edit can have: a name of 255, ten of fixed fields, and RDATA that a line has room for. */
enum { EDIT_ROOM = 2048 };

/*
 * Writes the edit of `line`, which is changed, and says how many bytes it has; 0 where the line is no edit, and *why says why.
 *
 *   put NAME TTL CLASS TYPE [RDATA]      delete NAME CLASS TYPE [RDATA]
 *
 * NAME is text such as a.shop.example; CLASS is IN or a number; TYPE is A, AAAA, CNAME, NS, PTR, TXT, KEY, SRV, DNSKEY or a
 * number; RDATA is an address for A and AAAA, a name for CNAME, NS and PTR, the rest of the line for TXT, else hex digits.
 * Values that the server doesn't allow are not looked for here: the server refuses them.
 */
size_t edit_of_line(char *line, uint8_t edit[EDIT_ROOM], const char **why);

/* The bytes of a name in text, at most 255, or 0 where it is no name. */
size_t name_of_text(const char *text, uint8_t name[255]);

#endif
