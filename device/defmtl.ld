/* The lines for a firmware's linker script, at the end of its SECTIONS: copy them, or write INCLUDE defmtl.ld there and give the
 * linker this folder (-L). */

/* The format strings: a byte each from address 1 on, so that a string's address is its index. The section is in the ELF file alone
   and takes no memory of the device. */
.defmt 0 (INFO) : { . = 1; KEEP(*(.defmt .defmt.*)) }

/* What a host asks for before it reads a table. The profile is named by defmtl.h. */
"_defmt_version_ = 4" = 1;
"_defmt_encoding_ = rzcobs" = 1;
