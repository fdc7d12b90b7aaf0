package rlc.front.signatures;

import java.util.LinkedHashMap;
import java.util.LinkedHashSet;
import java.util.Map;
import java.util.Set;
import javax.lang.model.element.Element;

/**
 * Annotations that could not be taken as they stand, by the element that carries them. None is
 * dropped in silence: each of the sources is reported there, and the answer is then never that all
 * is well.
 */
public final class Problems {
  private final Map<Element, Set<String>> found = new LinkedHashMap<>();

  /** Notes what is wrong at an element. */
  public void add(Element element, String message) {
    found.computeIfAbsent(element, it -> new LinkedHashSet<>()).add(message);
  }

  /** All that was noted. */
  public Map<Element, Set<String>> all() {
    return found;
  }
}
