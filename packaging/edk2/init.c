/* The first program of Linux in the test: it says that it runs, and how the firmware was found, and ends the machine. */
#include <fcntl.h>
#include <stdio.h>
#include <sys/mount.h>
#include <sys/reboot.h>
#include <sys/stat.h>
#include <unistd.h>

int main(void)
{
    char line[4096] = "";
    mkdir("/proc", 0755);
    mkdir("/sys", 0755);
    mount("proc", "/proc", "proc", 0, "");
    mount("sys", "/sys", "sysfs", 0, "");
    int file = open("/proc/cmdline", O_RDONLY);
    if (read(file, line, sizeof line - 1) < 0)
        line[0] = 0;
    printf("LINUX STARTED by %s: %s", access("/sys/firmware/efi", F_OK) ? "no UEFI" : "UEFI", line);
    printf("LINUX ENDS\n");
    fflush(stdout);
    sync();
    sleep(1);
    return reboot(RB_POWER_OFF);
}
