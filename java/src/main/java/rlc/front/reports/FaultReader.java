package rlc.front.reports;

import java.util.ArrayList;
import java.util.Arrays;
import java.util.List;
import java.util.regex.Matcher;
import java.util.regex.Pattern;
import rlc.front.lowering.LoweredMethod;
import rlc.front.output.Skeleton;
import rlc.front.output.SkeletonFile;
import rlc.front.project.SourceBody;
import rlc.front.runs.RunException;

/** Reads the reports of {@code rlc}, as its README says that they are written. */
public final class FaultReader {
  private static final Pattern HEAD =
      Pattern.compile("(?:.*/)?([^/:]+):(\\d{1,9}):(\\d{1,9}): (\\S+) missing(.*)");
  private static final Pattern ORIGIN =
      Pattern.compile("  origin (\\S+) (\\S+) (\\d{1,9}):(\\d{1,9})");
  private static final Pattern STEP = Pattern.compile("  (\\d{1,9}):(\\d{1,9}) (\\S+) (.*)");

  private FaultReader() {}

  /** The faults that a text lists. */
  public static List<Fault> read(Skeleton skeleton, String text) throws RunException {
    List<Fault> found = new ArrayList<>();
    List<String> lines = text.lines().toList();
    int at = 0;
    while (at < lines.size()) {
      int end = at + 1;
      while (end < lines.size() && lines.get(end).startsWith("  ")) {
        end++;
      }
      found.add(fault(skeleton, lines.subList(at, end)));
      at = end;
    }
    return found;
  }

  private static Fault fault(Skeleton skeleton, List<String> lines) throws RunException {
    Matcher head = HEAD.matcher(lines.get(0));
    Matcher origin = ORIGIN.matcher(lines.size() > 1 ? lines.get(1) : "");
    if (!head.matches() || !origin.matches()) {
      throw new RunException("rlc wrote a report that this front cannot read: "
          + RunException.quote(lines.get(0)));
    }
    SkeletonFile file = skeleton.file(head.group(1));
    int line = number(head, 2);
    SourceBody body = file != null && file.text().subjectAt(line) instanceof LoweredMethod method
        ? method.source() : null;
    if (body == null) {
      throw new RunException("rlc reports a fault outside of every body: "
          + RunException.quote(lines.get(0)));
    }
    List<Fault.Step> steps = new ArrayList<>();
    for (String it : lines.subList(2, lines.size())) {
      Matcher step = STEP.matcher(it);
      if (step.matches()) {
        String way = step.group(4);
        String thrown = way.startsWith("throws ") ? simple(way.substring(7)) : null;
        steps.add(new Fault.Step(file.text().placeAt(number(step, 1), number(step, 2)),
            step.group(3), thrown));
      }
    }
    List<String> names = Arrays.stream(head.group(5).strip().split(" ")).filter(it -> !it.isEmpty())
        .toList();
    return new Fault(body, head.group(4), names, file.text().placeAt(line, number(head, 3)),
        file.text().placeAt(number(origin, 3), number(origin, 4)), origin.group(1),
            simple(origin.group(2)), steps);
  }

  private static int number(Matcher matcher, int group) {
    return Integer.parseInt(matcher.group(group));
  }

  private static String simple(String name) {
    return name.substring(name.lastIndexOf('.') + 1);
  }
}
