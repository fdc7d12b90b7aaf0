package rlc.front.reports;

import java.util.ArrayList;
import java.util.LinkedHashMap;
import java.util.List;
import java.util.Map;
import rlc.front.project.SourceBody;
import rlc.front.skeleton.Place;

/**
 * An obligation that is not met on some way, with all its faults: what the user is told at once.
 */
public final class Finding {
  private final Place place;
  private final List<Fault> faults = new ArrayList<>();

  private Finding(Place place) {
    this.place = place;
  }

  /** The faults by the obligations that they speak of, in the order in which they were found. */
  public static List<Finding> group(List<Fault> faults) {
    Map<List<Object>, Finding> found = new LinkedHashMap<>();
    for (Fault it : faults) {
      Place place = placeOf(it);
      List<Object> key = List.of(System.identityHashCode(place.tree()), it.kind(), isLeak(it));
      found.computeIfAbsent(key, at -> new Finding(place)).faults.add(it);
    }
    return new ArrayList<>(found.values());
  }

  /** An obligation is told where it came in, a wrong use of what is not owned where it stands. */
  private static Place placeOf(Fault fault) {
    boolean ofField = fault.kind().equals("field") || fault.kind().equals("this");
    if (fault.rule().equals("ensures") && ofField) {
      return Place.of(fault.body().tree());
    }
    boolean atOrigin = isLeak(fault) && !(ofField && fault.rule().equals("overwritten"))
        || fault.rule().equals("ensures");
    Place first = atOrigin ? fault.origin() : fault.place();
    Place second = atOrigin ? fault.place() : fault.origin();
    return first != null ? first : second != null ? second : Place.of(fault.body().tree());
  }

  /**
   * Says whether a fault is that an object is left behind, or one of giving away what is not owned.
   */
  static boolean isLeak(Fault fault) {
    return switch (fault.rule()) {
      case "lost", "exit", "throw", "overwritten", "ctor.throw" -> true;
      default -> false;
    };
  }

  /** Where the obligation came in. */
  public Place place() {
    return place;
  }

  /** Its faults. */
  public List<Fault> faults() {
    return faults;
  }

  /** The body. */
  public SourceBody body() {
    return faults.get(0).body();
  }
}
