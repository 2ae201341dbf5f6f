/*
 * Lets uefi_boot change variables whose files Linux protects by the flag `immutable`, as libefivar does for efibootmgr.
 *
 * tools/static-program links this file into uefi_boot with -Wl,--wrap for open, unlink and close, so the program calls the functions
 * below instead. If a file of efivarfs has the flag, they clear it, and set it again when the file is closed or cannot be deleted.
 * If they cannot clear it, the program gets the error that it would get without them.
 */
#include <errno.h>
#include <fcntl.h>
#include <linux/fs.h>
#include <linux/magic.h>
#include <sys/ioctl.h>
#include <sys/vfs.h>
#include <unistd.h>

int __real_open(const char *path, int flags, ...);
int __real_unlink(const char *path);
int __real_close(int file);
int __wrap_open(const char *path, int flags, unsigned mode);
int __wrap_unlink(const char *path);
int __wrap_close(int file);

/* The open file whose flag is cleared, or -1. uefi_boot writes one file after the other. */
static int cleared = -1;

/* Sets or clears the flag of an open file. Returns whether this changed the flag. */
static int set_immutable(int file, int is_immutable)
{
    int flags = 0;
    if (ioctl(file, FS_IOC_GETFLAGS, &flags) || is_immutable == !!(flags & FS_IMMUTABLE_FL))
        return 0;
    flags ^= FS_IMMUTABLE_FL;
    return !ioctl(file, FS_IOC_SETFLAGS, &flags);
}

/* Clears the flag of a file of efivarfs, and returns a descriptor of the file. Returns -1 if no flag was cleared. */
static int open_cleared(const char *path)
{
    struct statfs system;
    // Opening a file of another file system could block.
    if (statfs(path, &system) || system.f_type != EFIVARFS_MAGIC)
        return -1;
    int file = __real_open(path, O_RDONLY | O_CLOEXEC);
    if (file >= 0 && !set_immutable(file, 0)) {
        __real_close(file);
        file = -1;
    }
    return file;
}

/* open always gets a mode here, and reads it only if it creates a file. */
int __wrap_open(const char *path, int flags, unsigned mode)
{
    int opened = __real_open(path, flags, mode);
    if (opened >= 0 || errno != EPERM || (flags & O_ACCMODE) == O_RDONLY || cleared >= 0)
        return opened;
    int error = errno, file = open_cleared(path);
    if (file >= 0) {
        opened = __real_open(path, flags, mode);
        error = errno;
        cleared = opened;
        if (opened < 0)
            set_immutable(file, 1);
        __real_close(file);
    }
    errno = error;
    return opened;
}

int __wrap_unlink(const char *path)
{
    int result = __real_unlink(path);
    if (!result || errno != EPERM)
        return result;
    int error = errno, file = open_cleared(path);
    if (file >= 0) {
        result = __real_unlink(path);
        error = errno;
        if (result)
            set_immutable(file, 1);
        __real_close(file);
    }
    errno = error;
    return result;
}

int __wrap_close(int file)
{
    if (file >= 0 && file == cleared) {
        int error = errno;
        set_immutable(file, 1);
        errno = error;
        cleared = -1;
    }
    return __real_close(file);
}
