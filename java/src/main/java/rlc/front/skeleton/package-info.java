/**
 * The lowered program: a small tree of the types, expressions, statements and methods that {@code
 * rlc} reads, which statements of it can be reached, and its text with marks that lead back to the
 * source.
 *
 * <p>The text is an <i>ownership skeleton</i>: it does on objects, null tests and exceptions
 * whatever the source may do, and leaves out every number, boolean and text. All signatures stand
 * in one stub, as static methods; each body stands by itself against that stub.
 */
package rlc.front.skeleton;
