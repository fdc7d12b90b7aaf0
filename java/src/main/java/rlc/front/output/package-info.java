/**
 * The files of the lowered program: sources of bodies, and the stub against which each stands by
 * itself.
 */
package rlc.front.output;
