/* The heap of the player's library, over the C library's. A block is handed out where malloc gives one;
 * each size and alignment is asked for as malloc aligns: 16 at most. It is compiled for each processor by the kit's clang,
 * and its names are seen inside of the library alone. */
typedef unsigned long long word;

struct got {
    word is_there;
    void *at;
};

void *malloc(word);
void *realloc(void *, word);
void free(void *);

/* Of no bytes a block is asked for all the same, so that NULL says that there is no memory. */
struct got rattle_alloc(word size, word align) {
    void *at = malloc(size ? size : align);
    return (struct got){at != 0, at ? at : (void *)align};
}

struct got rattle_realloc(void *old, word kept, word size, word align) {
    void *at = realloc(old, size ? size : align);
    (void)kept;
    return (struct got){at != 0, at ? at : (void *)align};
}

void rattle_dealloc(void *at) {
    free(at);
}
