/* Epiphany BSP's header of a core's program. */
#error "Epiphany BSP has other names: docs/manual/c.md, From other BSPlibs, says what to write for each"
