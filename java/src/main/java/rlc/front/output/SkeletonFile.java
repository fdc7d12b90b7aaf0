package rlc.front.output;

import rlc.front.skeleton.MarkedText;

/**
 * A file of the lowered program.
 *
 * @param name its name
 * @param text its text with the marks that lead back to the source
 */
public record SkeletonFile(String name, MarkedText text) {}
