/**
 * Reports: what {@code rlc} says of the lowered program, told in words at the places of the source.
 */
package rlc.front.reports;
