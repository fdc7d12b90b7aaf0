package rlc.front.reports;

import java.util.List;
import rlc.front.project.SourceBody;
import rlc.front.skeleton.Place;

/**
 * A broken rule, with the places of the source.
 *
 * @param body the body
 * @param rule the rule
 * @param names the names that were not called
 * @param place where it is broken
 * @param origin where the obligation came into the body, or null where no token of the source
 *     stands for it
 * @param kind how it came: {@code new}, {@code result}, {@code param}, {@code field}, {@code this},
 *     {@code read}, {@code super}
 * @param type the lowered name of its class
 * @param steps the way from the one to the other
 */
public record Fault(
    SourceBody body, String rule, List<String> names, Place place, Place origin, String kind,
        String type, List<Step> steps) {

  /**
   * A step of a way.
   *
   * @param place its place, or null
   * @param word what it does
   * @param thrown the lowered name of the class that it throws, or null
   */
  public record Step(Place place, String word, String thrown) {}
}
