/**
 * Lowering: from the compiler's trees of a class to its part of the lowered program, construct by
 * construct. {@code docs/FRONT.md} says what becomes of each and why no leak is hidden by it.
 */
package rlc.front.lowering;
