/** Runs of {@code rlc} over the lowered program, after the compiler has taken its text. */
package rlc.front.runs;
