/* A heap for the guests of this folder that are without a C library. */
void *malloc(unsigned size);
void free(void *place);
