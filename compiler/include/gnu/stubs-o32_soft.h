/* Debian's headers for MIPS lack this file, which they include where floating point is done in software. */
