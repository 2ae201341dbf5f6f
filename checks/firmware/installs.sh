# The first program of Debian in the test `installs`. If QEMU started the kernel, it installs Debian's boot loaders, with uefi_boot as
# efibootmgr. If GRUB started the kernel, it only lists the boot entries.
PATH=/usr/sbin:/usr/bin:/sbin:/bin LC_ALL=C DEBIAN_FRONTEND=noninteractive
export PATH LC_ALL DEBIAN_FRONTEND
files=/boot/efi/installs

# Runs a command, and prints it, what it prints, and its status.
run() {
    echo "\$ $*"
    "$@" 2>&1
    echo "status $?"
}

modprobe efivarfs
mount -t efivarfs efivarfs /sys/firmware/efi/efivars
echo "LINUX BEGINS"
if ! grep -q BOOT_IMAGE= /proc/cmdline; then
    mount -o remount,rw /
    # Debian's own stays as efibootmgr.distrib.
    dpkg-divert --quiet --local --rename /usr/bin/efibootmgr
    mkdir -p /usr/lib/nardcorbel
    cp $files/efibootmgr $files/libnardcorbel-efivar.so /usr/lib/nardcorbel
    cat > /usr/bin/efibootmgr << 'END'
#!/bin/sh
printf 'efibootmgr %s\n' "$*" >> /run/calls
exec /usr/lib/nardcorbel/efibootmgr "$@"
END
    chmod 755 /usr/bin/efibootmgr /usr/lib/nardcorbel/efibootmgr
    run bootctl install
    # It calls no efibootmgr, but libefivar.
    run env LD_PRELOAD=/usr/lib/nardcorbel/libnardcorbel-efivar.so grub-install --target=x86_64-efi --force-extra-removable
    run update-grub
    run dpkg-reconfigure "linux-image-$(uname -r)"
    echo refind refind/install_to_esp boolean true | debconf-set-selections
    run dpkg-reconfigure refind
    # Its postinst now deletes the entry first.
    run dpkg-reconfigure refind
    run refind-mkdefault -L debian
    run cat /run/calls
    run efibootmgr.distrib -v
fi
run efibootmgr -v
sync
# Mounts all file systems read-only, so that the end of the machine leaves them complete.
echo u > /proc/sysrq-trigger
sleep 1
echo "LINUX ENDS"
echo o > /proc/sysrq-trigger
sleep 60
