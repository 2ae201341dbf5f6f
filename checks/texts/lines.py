"""Lines that other programs print, and files that people write for them: no device path, except where the line says so.

A line without a path reaches the reader when somebody pastes too much. It is rejected unless all of it is a path as people write one.
"""
REJECTED = r"""
# rEFInd: refind.conf and its log
loader \EFI\Microsoft\Boot\bootmgfw.efi
    loader  \EFI\ubuntu\grubx64.efi
icon \EFI\refind\icons\os_arch.png
volume "ARCH\boot"
initrd \initramfs-linux.img
Loader file is '\EFI\ubuntu\grubx64.efi'
Adding loader entry for '\EFI\fedora\shimx64.efi'
Looking for fallback boot loader: '\EFI\BOOT\bootx64.efi'
Using load options 'ro root=UUID=1234 initrd=\initrd.img'
Skipping "\EFI\BOOT\grubx64.efi" because it is a duplicate
default_selection Microsoft,vmlinuz,\EFI\arch
# Windows: bcdedit, diskpart, registry, logs
path                    \EFI\Microsoft\Boot\bootmgfw.efi
path    \WINDOWS\system32\winload.efi
device                  partition=\Device\HarddiskVolume1
osdevice                partition=C:
systemroot              \WINDOWS
bootmgr  device=\Device\HarddiskVolume2
resumeobject            {1a2b3c4d-0000-0000-0000-000000000000}
bcdedit /set {bootmgr} path \EFI\debian\grubx64.efi
C:\EFI\Microsoft\Boot\bootmgfw.efi
S:\EFI\BOOT\BOOTX64.EFI
"S:\EFI\BOOT\BOOTX64.EFI"
partition=S:\EFI\BOOT
BootDevice=\Device\HarddiskVolume1
SystemPartition : \Device\HarddiskVolume1
[boot]\EFI\Boot\bootx64.efi
multi(0)disk(0)rdisk(0)partition(1)\WINDOWS
<path>\EFI\Microsoft\Boot\bootmgfw.efi</path>
FilePath=\EFI\Boot\bootx64.efi;Size=1
EFI System Partition|\EFI\BOOT
copy *\EFI\BOOT\*.efi
dir /s EFI?\BOOT
# systemd-boot: loader entries, bootctl
efi   \EFI\arch\linux.efi
efi     \EFI\Linux\arch-linux.efi
title   Arch Linux \EFI
linux   \vmlinuz-linux
         File: └─\EFI\systemd\systemd-bootx64.efi
      options: initrd=\initramfs-linux.img rw
       source: \loader\entries\arch.conf
stub: \EFI\Linux\a.efi
# GRUB
chainloader \EFI\Microsoft\Boot\bootmgfw.efi
set efi_path=\EFI\ubuntu
/PCI(0,3)
/PCI(1f,2)
/ACPI(a0341d0,0)/PCI(0,3)
error: file `\EFI\BOOT\grub.cfg' not found.
(hd0,gpt1)\EFI\BOOT\BOOTX64.EFI
(hd0,gpt1)/EFI/BOOT/BOOTX64.EFI
# efibootmgr, its words and the shell
Boot0001* debian	HD(1,GPT,03020100-0504-0706-0809-0a0b0c0d0e0f,0x800,0x100000)/File(\EFI\debian\shimx64.efi)
efibootmgr -c -L Debian -l \EFI\debian\shimx64.efi
-l \EFI\debian\shimx64.efi
--loader \EFI\debian\shimx64.efi
--loader=\EFI\debian\shimx64.efi
$ cp shimx64.efi \EFI\debian
loader='\EFI\debian\shimx64.efi'
# the UEFI shell
FS0:\EFI\BOOT\BOOTX64.EFI
fs0:\> \EFI\BOOT\BOOTX64.EFI
Shell> FS0:\EFI\BOOT\BOOTX64.EFI
bcfg boot add 0 fs0:\EFI\debian\shimx64.efi "Debian"
      FS0: Alias(s):HD0b:;BLK1:
Directory of: FS0:\EFI\BOOT\
load fs0:\EFI\x.efi
# firmware and kernel logs
BdsDxe: loading Boot0001 "UEFI QEMU DVD-ROM" from \EFI\BOOT\BOOTX64.EFI
[Bds]Booting \EFI\BOOT\BOOTX64.EFI
Loading driver at 0x0007E123000 EntryPoint=0x0007E12311A \EFI\a.efi
[    0.000000] efi: EFI v2.70 by EDK II \EFI
Image path: \EFI\BOOT\BOOTX64.EFI
start_image() returned \EFI\BOOT\BOOTX64.EFI
# mails and pages
> \EFI\BOOT\BOOTX64.EFI
>> \EFI\BOOT\BOOTX64.EFI
* \EFI\BOOT\BOOTX64.EFI
+ \EFI\BOOT\BOOTX64.EFI
+\EFI\BOOT\BOOTX64.EFI
| \EFI\BOOT\BOOTX64.EFI |
1. \EFI\BOOT\BOOTX64.EFI
- [x] \EFI\BOOT\BOOTX64.EFI
`\EFI\BOOT\BOOTX64.EFI`
``\EFI\BOOT\BOOTX64.EFI``
"\EFI\BOOT\BOOTX64.EFI" and more
“\EFI\BOOT\BOOTX64.EFI”
„\EFI\BOOT\BOOTX64.EFI“
‘\EFI\BOOT\BOOTX64.EFI’
«\EFI\BOOT\BOOTX64.EFI»
‹\EFI\BOOT\BOOTX64.EFI›
「\EFI\BOOT\BOOTX64.EFI」
• \EFI\BOOT\BOOTX64.EFI
– \EFI\BOOT\BOOTX64.EFI
use \EFI\BOOT\BOOTX64.EFI, please
See:\EFI\BOOT\BOOTX64.EFI
# JSON, YAML, TOML, C
HD(1,MBR,0x12345678,0x800,0x64000)/\\EFI\\redhat\\shimx64.efi
\\EFI\\redhat\\shimx64.efi
"\\EFI\\redhat\\shimx64.efi"
File(\\EFI\\redhat\\shimx64.efi)
"path": "\\EFI\\redhat\\shimx64.efi",
path: \EFI\redhat\shimx64.efi
path = "\EFI\redhat\shimx64.efi"
path=\EFI\redhat\shimx64.efi
L"\\EFI\\BOOT\\BOOTX64.EFI"
TEXT("\EFI\BOOT\BOOTX64.EFI")
# Limine, Clover, OpenCore, iPXE, U-Boot
PATH=boot():\EFI\BOOT\BOOTX64.EFI
<string>\EFI\CLOVER\CLOVERX64.efi</string>
OC: Boot failed \EFI\Microsoft\Boot\bootmgfw.efi
fatload mmc 0:1 ${kernel_addr_r} \EFI\BOOT\BOOTAA64.EFI
sanboot --drive 0x80 --filename \EFI\BOOT\BOOTX64.EFI
""".strip("\n").split("\n")

READ = [line.split(" => ") for line in r"""
          PciRoot(0x0)/Pci(0x1,0x1)/Ata(0x0) => PciRoot(0x0)/Pci(0x1,0x1)/Ata(Primary,Master,0x0)
\EFI\debian\shimx64.efi => \EFI\debian\shimx64.efi
EFI\debian\shimx64.efi => \EFI\debian\shimx64.efi
  EFI\debian\shimx64.efi   => \EFI\debian\shimx64.efi
	\EFI\debian\shimx64.efi => \EFI\debian\shimx64.efi
"\EFI\debian\shimx64.efi" => \EFI\debian\shimx64.efi
'EFI\debian\shimx64.efi' => \EFI\debian\shimx64.efi
File(\EFI\debian\shimx64.efi) => \EFI\debian\shimx64.efi
 File(\EFI\debian\shimx64.efi)  => \EFI\debian\shimx64.efi
Größe\boot.efi => \Größe\boot.efi
日本語\boot.efi => \日本語\boot.efi
EFI_1.0-a~1#!$%&@^{}\a.efi => \EFI_1.0-a~1#!$%&@^{}\a.efi
EFI\a b\c=d.efi => \EFI\a b\c=d.efi
HD(1,MBR,0x12345678)/EFI\debian\shimx64.efi => HD(1,MBR,0x12345678,0x0,0x0)/\EFI\debian\shimx64.efi
/PciRoot(0x0)/Pci(0x1f,0x2) => PciRoot(0x0)/Pci(0x1F,0x2)
/Pci(0,3) => Pci(0x0,0x3)
/PCI(0x0,0x3) => Pci(0x0,0x3)
UsbWwid(128,2,0," A") => UsbWwid(0x80,0x2,0x0," A")
/HD(1,GPT,12345678-9abc-def0-1234-56789abcdef0)/\EFI\BOOT\BOOTX64.EFI => HD(1,GPT,12345678-9ABC-DEF0-1234-56789ABCDEF0,0x0,0x0)/\EFI\BOOT\BOOTX64.EFI
""".strip("\n").split("\n")]
