package rlc.front.lowering;

import rlc.front.project.SourceBody;
import rlc.front.skeleton.MethodText;

/**
 * A body of the source with its lowered form.
 *
 * @param source the body, or null for a method that only calls what the super class declares
 * @param text its lowered form, or null where it could not be lowered
 * @param placeholder what stands in its place where it is left out of a class that must have the
 *     method, or null
 */
public record LoweredMethod(SourceBody source, MethodText text, MethodText placeholder) {

  /** What stands in the lowered program, or null. */
  public MethodText emitted() {
    return text == null || source != null && source.isLeftOut() ? placeholder : text;
  }
}
