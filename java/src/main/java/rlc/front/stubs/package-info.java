/**
 * Stub files: the annotations of libraries that have none themselves, in the form that {@code rlc}
 * reads.
 */
package rlc.front.stubs;
