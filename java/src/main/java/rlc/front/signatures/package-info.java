/**
 * What signatures say of ownership: the annotations of sources, class files and stubs, the
 * obligations of classes, the lowered types, and the table of the signatures that bodies use, which
 * becomes the stub of the lowered program.
 */
package rlc.front.signatures;
