/*
 * The first program of Linux in the test beside this file: runs uefi_boot on the machine's own variables, with some of them
 * protected as by `chattr +i`, with one that was not written, killed between two writes, mounted read-only, mounted elsewhere,
 * and in a full store, and ends the machine. If its argument is `cut`, it stops uefi_boot between two writes instead, and waits for
 * the end of the machine.
 */
#include <fcntl.h>
#include <linux/capability.h>
#include <linux/fs.h>
#include <stdio.h>
#include <signal.h>
#include <stdlib.h>
#include <string.h>
#include <sys/ioctl.h>
#include <sys/mount.h>
#include <sys/prctl.h>
#include <sys/ptrace.h>
#include <sys/reboot.h>
#include <sys/stat.h>
#include <sys/syscall.h>
#include <sys/user.h>
#include <sys/wait.h>
#include <unistd.h>

#define VARIABLES "/sys/firmware/efi/efivars"
#define ELSEWHERE "/target" VARIABLES
#define FILE_OF(name) VARIABLES "/" name "-8be4df61-93ca-11d2-aa0d-00e098032b8c"

/* Opens a file, and reads its flags. */
static int open_flags(const char *path, int *flags)
{
    int file = open(path, O_RDONLY);
    if (file < 0 || ioctl(file, FS_IOC_GETFLAGS, flags))
        perror(path);
    return file;
}

/* Does what `chattr +i` does. */
static void protect(const char *path)
{
    int flags = 0, file = open_flags(path, &flags);
    flags |= FS_IMMUTABLE_FL;
    if (ioctl(file, FS_IOC_SETFLAGS, &flags))
        perror(path);
    close(file);
}

/* Prints, in the form of a command, whether a file is protected. */
static void print_flag(const char *path)
{
    int flags = 0;
    close(open_flags(path, &flags));
    printf("$ lsattr %s\n%s\nstatus 0\n", path, flags & FS_IMMUTABLE_FL ? "protected" : "free");
}

/* Writes variables until there is no space even for a small one. */
static void fill(void)
{
    static const char bytes[4 + 1024] = {7};
    int number = 0;
    for (int size = 1024; size > 0; size /= 2)
        for (;;) {
            char path[128];
            snprintf(path, sizeof path, VARIABLES "/Fill%04X-605dab50-e046-4300-abb6-3dd810dd8b23", number++);
            int file = open(path, O_WRONLY | O_CREAT, 0644);
            ssize_t written = write(file, bytes, 4 + size);
            close(file);
            if (written < 0) {
                unlink(path);
                break;
            }
        }
}

/*
 * How the program runs: to its end; to its end without the right to change the flag; or until after its first write to a file, when it is
 * killed, or the machine waits for its own end.
 */
enum way { FREE, WITHOUT_RIGHT, KILLED, POWER_CUT };

static void run(enum way way, char *const words[])
{
    int status = 0;
    printf("$");
    for (int i = 0; words[i]; i++)
        printf(" %s", words[i]);
    printf("\n");
    fflush(stdout);
    pid_t child = fork();
    if (child == 0) {
        dup2(1, 2);
        if (way == WITHOUT_RIGHT)
            prctl(PR_CAPBSET_DROP, CAP_LINUX_IMMUTABLE);
        if (way == KILLED || way == POWER_CUT)
            ptrace(PTRACE_TRACEME, 0, NULL, NULL);
        execv("/uefi_boot", words);
        _exit(127);
    }
    waitpid(child, &status, 0);
    if (WIFSTOPPED(status))
        ptrace(PTRACE_SETOPTIONS, child, NULL, PTRACE_O_TRACESYSGOOD);
    for (int is_within = 0; WIFSTOPPED(status);) {
        struct user_regs_struct registers;
        ptrace(PTRACE_SYSCALL, child, NULL, NULL);
        waitpid(child, &status, 0);
        if (!WIFSTOPPED(status) || WSTOPSIG(status) != (SIGTRAP | 0x80))
            continue;
        is_within = !is_within;
        if (is_within || ptrace(PTRACE_GETREGS, child, NULL, &registers) || registers.orig_rax != SYS_write || registers.rdi <= 2)
            continue;
        if (way == POWER_CUT) {
            printf("LINUX WAITS\n");
            fflush(stdout);
            for (;;)
                pause();
        }
        kill(child, SIGKILL);
    }
    printf("status %d\n", WIFSIGNALED(status) ? 128 + WTERMSIG(status) : WEXITSTATUS(status));
    fflush(stdout);
}

#define RUN_AS(way, ...) run(way, (char *const[]){"uefi_boot", __VA_ARGS__, NULL})
#define RUN(...) RUN_AS(FREE, __VA_ARGS__)

/* Loads the modules of the kernel, one after the other. */
static void load(void)
{
    char path[64];
    for (int place = 0; place < 100; place++) {
        snprintf(path, sizeof path, "/module%02d.ko", place);
        int module = open(path, O_RDONLY);
        if (module >= 0 && syscall(SYS_finit_module, module, "", 0))
            perror(path);
    }
}

int main(int count, char *words[])
{
    mkdir("/proc", 0755);
    mkdir("/sys", 0755);
    mkdir("/esp", 0755);
    mount("proc", "/proc", "proc", 0, "");
    mount("sys", "/sys", "sysfs", 0, "");
    mount("dev", "/dev", "devtmpfs", 0, "");
    load();
    for (int tenths = 0; tenths < 100 && mount("/dev/vda1", "/esp", "vfat", MS_RDONLY, ""); tenths++)
        usleep(100000);
    if (mount("efivarfs", VARIABLES, "efivarfs", 0, ""))
        perror(VARIABLES);
    printf("LINUX BEGINS\n");
    if (count > 1 && !strcmp(words[1], "cut")) {
        RUN("create", "--description", "before the cut", "--loader", "/esp/EFI/tools/hello.efi", "--number", "0049", "--data-ascii", "before");
        RUN_AS(POWER_CUT, "create", "--description", "cut", "--loader", "/esp/EFI/tools/hello.efi", "--number", "0048");
    }
    RUN(FILE_OF("BootOrder"));
    RUN(VARIABLES);
    RUN("create", "--description", "made by Linux", "--path", "HD(1,MBR,0x4E415244,0x800,0x4000)/\\EFI\\linux.efi", "--number", "0042");
    RUN("timeout", "7");
    RUN("next", "0042");
    protect(FILE_OF("Boot0000"));
    RUN_AS(WITHOUT_RIGHT, "rename", "0000", "not renamed");
    RUN("rename", "0000", "still protected");
    print_flag(FILE_OF("Boot0000"));
    protect(FILE_OF("BootOrder"));
    RUN_AS(WITHOUT_RIGHT, "create", "--description", "not created", "--path", "\\EFI\\linux.efi", "--number", "0044");
    RUN("create", "--description", "created", "--path", "\\EFI\\linux.efi", "--number", "0044");
    protect(FILE_OF("Boot0044"));
    RUN_AS(WITHOUT_RIGHT, "delete", "0044");
    RUN("delete", "0044");
    print_flag(FILE_OF("BootOrder"));
    // Linux itself protects the variables that it does not know.
    RUN("create", "--sysprep", "--description", "prepares", "--path", "\\EFI\\linux.efi", "--number", "0001");
    RUN("rename", "--sysprep", "0001", "prepares more");
    print_flag(FILE_OF("SysPrep0001"));
    RUN("delete", "--sysprep", "0001");
    mount(NULL, VARIABLES, NULL, MS_REMOUNT | MS_RDONLY, NULL);
    RUN("timeout", "9");
    mount(NULL, VARIABLES, NULL, MS_REMOUNT, NULL);
    // A program that is killed before it has written the variable leaves this.
    close(open(FILE_OF("Boot0077"), O_WRONLY | O_CREAT, 0644));
    RUN("check");
    RUN("delete", "0077");
    RUN("delete", "0042");
    RUN("create", "--description", "by its loader", "--loader", "/esp/EFI/tools/hello.efi", "--number", "0050", "--data-ascii", "one");
    RUN("create", "--description", "in full", "--disk", "/dev/vda", "--partition", "1", "--loader", "/EFI/tools/hello.efi", "--full-path",
        "--number", "0051", "--data-ascii", "four");
    RUN_AS(KILLED, "create", "--description", "killed", "--path", "\\EFI\\linux.efi", "--number", "0052");
    RUN(VARIABLES);
    for (const char *end = ELSEWHERE; (end = strchr(end + 1, '/'));) {
        char path[] = ELSEWHERE;
        path[end - (const char *)ELSEWHERE] = 0;
        mkdir(path, 0755);
    }
    if (mkdir(ELSEWHERE, 0755) || mount("efivarfs", ELSEWHERE, "efivarfs", 0, ""))
        perror(ELSEWHERE);
    RUN("order", "0051,0050", "--variables", ELSEWHERE);
    RUN("create", "--description", "on a full store", "--path", "\\EFI\\linux.efi", "--number", "0043");
    fill();
    RUN("delete", "0043");
    print_flag(FILE_OF("BootOrder"));
    RUN(VARIABLES);
    printf("LINUX ENDS\n");
    fflush(stdout);
    sync();
    sleep(1);
    return reboot(RB_POWER_OFF);
}
