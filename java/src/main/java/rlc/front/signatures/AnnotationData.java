package rlc.front.signatures;

import java.util.List;
import java.util.Map;

/**
 * An annotation as it was written, known by the last identifier of its name.
 *
 * @param name its simple name
 * @param values its values, each as a list of texts
 */
public record AnnotationData(String name, Map<String, List<String>> values) {

  /** The texts of an element, none where it is not given. */
  public List<String> texts(String element) {
    return values.getOrDefault(element, List.of());
  }
}
