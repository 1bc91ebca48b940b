/*
 * So many octets of code that nothing calls, linked before the archives: with another PADDING their
 * code lies elsewhere, and branch predictors and caches see other addresses.
 */
__asm__(".text\n\t.skip " PADDING ", 0x90\n");

extern int padding_is_only_assembly; /* a translation unit has a declaration */
