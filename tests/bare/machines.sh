# shellcheck shell=bash
# For scripts that compile programs without a system and run them under qemu, with the start code and the layout of memory of examples/firmware.
. tests/needs.sh

# A row: name in tools/target's table; gcc's options; qemu's machine; where its flash and its RAM start, and their sizes.
bare_machines() {
    sed 's/ *; */;/g' <<'END'
thumbv6m     ; -mcpu=cortex-m0plus                                   ; mps2-an385 ; 0x00000000 4M   0x20000000 4M
thumbv6m     ; -mcpu=cortex-m0                                       ; microbit   ; 0x00000000 256K 0x20000000 16K
thumbv7m     ; -mcpu=cortex-m3                                       ; mps2-an385 ; 0x00000000 4M   0x20000000 4M
thumbv7em    ; -mcpu=cortex-m4 -mfloat-abi=soft                      ; mps2-an386 ; 0x00000000 4M   0x20000000 4M
thumbv7em-hf ; -mcpu=cortex-m4 -mfpu=fpv4-sp-d16 -mfloat-abi=hard    ; mps2-an386 ; 0x00000000 4M   0x20000000 4M
thumbv7em-dp ; -mcpu=cortex-m7 -mfpu=fpv5-d16 -mfloat-abi=hard       ; mps2-an500 ; 0x00000000 4M   0x60000000 16M
thumbv8m     ; -mcpu=cortex-m33+nofp -mfloat-abi=soft                ; mps2-an505 ; 0x10000000 4M   0x80000000 16M
thumbv8m-hf  ; -mcpu=cortex-m33 -mfpu=fpv5-sp-d16 -mfloat-abi=hard   ; mps2-an505 ; 0x10000000 4M   0x80000000 16M
riscv32imc   ; -march=rv32imc -mabi=ilp32                            ; virt       ; 0x80000000 4M   0x80400000 8M
riscv32imac  ; -march=rv32imac -mabi=ilp32                           ; virt       ; 0x80000000 4M   0x80400000 8M
END
}

# bare_row ROW: takes the row's columns, and writes the layout of the machine's memory.
bare_row() {
    local words memory flash flash_size ram ram_size
    IFS=';' read -r name words machine memory <<<"$1"
    read -ra options <<<"$words"
    read -r flash flash_size ram ram_size <<<"$memory"
    bare=target/tests/bare
    mkdir -p "$bare"
    printf 'MEMORY { FLASH (rx) : ORIGIN = %s, LENGTH = %s  RAM (rwx) : ORIGIN = %s, LENGTH = %s }\nINCLUDE sections.ld\n' "$flash" "$flash_size" "$ram" "$ram_size" >"$bare/$machine.ld"
    case $name in
    riscv32*) compiler=(riscv64-unknown-elf-gcc --specs=picolibc.specs) emulator=(qemu-system-riscv32 -bios none) ;;
    *) compiler=(arm-none-eabi-gcc -D__int64_t_defined=1) emulator=(qemu-system-arm) ;; # Debian's newlib tells of its formats for 64 bits only then
    esac
}

# bare_compile FILE PROGRAM [OPTION..]: compiles a test of the row with its library.
bare_compile() {
    "${compiler[@]}" "${options[@]}" -std=gnu99 -O2 -Wall -Wextra -ffunction-sections -fdata-sections -Iinclude -Iexamples/firmware -Itests/bare "${@:3}" \
        examples/firmware/start.c tests/bare/system.c "$1" "target/$name/libjabulghi.a" \
        -nostartfiles -Wl,--gc-sections -Wl,--wrap=main -Wl,-z,noexecstack -Lexamples/firmware -T "$bare/$machine.ld" -o "$2"
}

# bare_once PROGRAM [OPTION..]: runs it, at most 200 s.
bare_once() {
    timeout 200 "${emulator[@]}" -M "$machine" -display none -monitor none -serial none -chardev stdio,id=text,signal=off \
        -semihosting-config enable=on,target=native,chardev=text "${@:2}" -kernel "$1" </dev/null
}

# bare_run PROGRAM [OPTION..]: runs it, once more if the emulator fails; what it prints comes on standard output.
bare_run() { emulated "$1.printed" bare_once "$@"; }
