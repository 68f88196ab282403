/* The board virt of qemu, where all is RAM; put your device's numbers here. */
MEMORY { FLASH (rx) : ORIGIN = 0x80000000, LENGTH = 512K  RAM (rwx) : ORIGIN = 0x80100000, LENGTH = 64K }
INCLUDE sections.ld
