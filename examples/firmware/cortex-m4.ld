/* The board mps2-an386 of qemu; put your device's numbers here. */
MEMORY { FLASH (rx) : ORIGIN = 0x00000000, LENGTH = 512K  RAM (rwx) : ORIGIN = 0x20000000, LENGTH = 64K }
INCLUDE sections.ld
