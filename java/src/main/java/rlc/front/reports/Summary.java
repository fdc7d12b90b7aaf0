package rlc.front.reports;

import java.util.List;
import java.util.Locale;
import rlc.front.project.SourceBody;

/**
 * The counts of a run. Each body is in exactly one of three.
 *
 * @param bodies all bodies
 * @param checked those that were judged
 * @param notChecked those that were not, each for a reason
 * @param suppressed those that the user does not want to be judged
 * @param obligations the obligations that are not met, and annotations that are wrong
 * @param suppressedObligations obligations at variables whose reports the user does not want
 * @param trusted methods of the program of which a stub of the user says something
 * @param seconds the time that lowering and judging took
 */
public record Summary(
    int bodies, int checked, int notChecked, int suppressed, int obligations,
        int suppressedObligations, int trusted,
    double seconds) {

  /** Counts bodies. */
  public static Summary of(List<SourceBody> all, int obligations, int suppressedObligations,
      int trusted, double seconds) {
    int suppressed = (int) all.stream().filter(SourceBody::isSuppressed).count();
    int notChecked = (int) all.stream().filter(it -> !it.isSuppressed() && it.reason() != null)
        .count();
    return new Summary(all.size(), all.size() - suppressed - notChecked, notChecked, suppressed,
        obligations,
        suppressedObligations, trusted, seconds);
  }

  /** Says whether all that was to be judged was judged, and nothing was found. */
  public boolean isClean() {
    return notChecked == 0 && obligations == 0;
  }

  @Override
  public String toString() {
    return String.format(Locale.ROOT,
        "rlc: %d bodies: %d checked, %d not checked, %d suppressed; "
            + "%d obligations reported, %d suppressed%s; %.1f seconds",
        bodies, checked, notChecked, suppressed, obligations, suppressedObligations,
        trusted == 0 ? "" : "; " + trusted + " methods trusted by a stub", seconds);
  }
}
