/* Shared objects that `native build` made: whether a file is one, of which image, and how long it stays loaded. */
#include "native.h"
#include <dlfcn.h>
#include <elf.h>
#include <fcntl.h>
#include <string.h>
#include <sys/stat.h>
#include <unistd.h>

#define MOST_STATE (1u << 20) /* no state has more bytes: 64 KiB of saved windows, and registers */

/* Whether so many bytes stand at a place of a file of this size. */
static int is_inside(uint64_t size, uint64_t at, uint64_t length)
{
    return at <= size && length <= size - at;
}

/* Whether the parts that are loaded stand in the file. */
static int has_segments(int file, const Elf64_Ehdr *head, uint64_t size)
{
    for (unsigned i = 0; i < head->e_phnum; i++) {
        Elf64_Phdr part;
        off_t at = (off_t)(head->e_phoff + i * sizeof part);
        if (pread(file, &part, sizeof part, at) != sizeof part || !is_inside(size, part.p_offset, part.p_filesz))
            return 0;
    }
    return head->e_phnum > 0;
}

/* Whether a file is a whole shared object of this machine. The loader looks at its head alone, and a process that
   touches what was cut off is killed. */
static int is_whole(int file)
{
    Elf64_Ehdr head;
    struct stat found;
    uint64_t size;
    if (fstat(file, &found) || !S_ISREG(found.st_mode) || pread(file, &head, sizeof head, 0) != sizeof head)
        return 0;
    size = (uint64_t)found.st_size;
    return !memcmp(head.e_ident, ELFMAG, SELFMAG) && head.e_ident[EI_CLASS] == ELFCLASS64
        && head.e_ident[EI_DATA] == ELFDATA2LSB && head.e_type == ET_DYN && head.e_machine == EM_X86_64
        && head.e_phentsize == sizeof(Elf64_Phdr) && is_inside(size, head.e_phoff, head.e_phnum * sizeof(Elf64_Phdr))
        && is_inside(size, head.e_shoff, (uint64_t)head.e_shnum * head.e_shentsize) && has_segments(file, &head, size);
}

/* OK where the file at a path is a whole object. */
static uint32_t look_at(const char *path)
{
    /* a pipe isn't waited for */
    int file = open(path, O_RDONLY | O_CLOEXEC | O_NONBLOCK), whole;
    if (file < 0)
        return GEYSERPAN_FILE;
    whole = is_whole(file);
    close(file);
    return whole ? GEYSERPAN_OK : GEYSERPAN_OBJECT;
}

/* Loads the file at a path, which isn't looked for elsewhere: OK; OBJECT where the loader refuses it, MEMORY. */
static uint32_t load(const char *path, void **library)
{
    const size_t length = strlen(path);
    geyserpan_block whole = rattle_alloc(length + 3, 1);
    char *at = whole.at;
    if (!whole.ok)
        return GEYSERPAN_MEMORY;
    memcpy(at, "./", 2);
    memcpy(at + 2, path, length + 1);
    *library = dlopen(memchr(path, '/', length) ? path : at, RTLD_NOW | RTLD_LOCAL);
    rattle_dealloc(at);
    return *library ? GEYSERPAN_OK : GEYSERPAN_OBJECT;
}

/* OK where the record of an object says that it is for these calls, and of the image with this hash. */
static uint32_t judge(const geyserpan_native_program *program, const uint8_t *hash)
{
    if (!program)
        return GEYSERPAN_OBJECT;
    if (program->abi != GEYSERPAN_NATIVE_ABI)
        return GEYSERPAN_OBJECT_ABI;
    if (memcmp(program->image, hash, sizeof program->image))
        return GEYSERPAN_OBJECT_IMAGE;
    if (!program->is_counted)
        return GEYSERPAN_OBJECT_COUNTS;
    if (program->state_bytes > MOST_STATE || program->block_bytes > GEYSERPAN_NATIVE_BLOCK)
        return GEYSERPAN_OBJECT;
    return GEYSERPAN_OK;
}

/* An object of a library, if that is one. */
static uint32_t keep(void *library, const uint8_t *hash, native_object **object)
{
    const geyserpan_native_program *program = dlsym(library, "geyserpan_program_1");
    uint32_t status = judge(program, hash);
    geyserpan_block made;
    if (status != GEYSERPAN_OK)
        return status;
    made = rattle_alloc(sizeof **object, _Alignof(native_object));
    if (!made.ok)
        return GEYSERPAN_MEMORY;
    *object = made.at;
    **object = (native_object){ library, program, 1 };
    return GEYSERPAN_OK;
}

uint32_t native_load(const char *path, const uint8_t *hash, native_object **object)
{
    uint32_t status = look_at(path);
    void *library;
    if (status == GEYSERPAN_OK)
        status = load(path, &library);
    if (status != GEYSERPAN_OK)
        return status;
    status = keep(library, hash, object);
    if (status != GEYSERPAN_OK)
        dlclose(library);
    return status;
}

native_object *native_hold(native_object *object)
{
    if (object)
        __atomic_add_fetch(&object->holders, 1, __ATOMIC_RELAXED);
    return object;
}

void native_let_go(native_object *object)
{
    if (!object || __atomic_sub_fetch(&object->holders, 1, __ATOMIC_ACQ_REL))
        return;
    dlclose(object->library);
    rattle_dealloc(object);
}
