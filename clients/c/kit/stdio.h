/* What the test uses of C's library, for a build without a system's headers. */
int printf(const char *, ...);
