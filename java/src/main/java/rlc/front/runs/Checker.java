package rlc.front.runs;

import java.io.IOException;
import java.nio.file.Files;
import java.nio.file.Path;
import java.util.ArrayDeque;
import java.util.ArrayList;
import java.util.Deque;
import java.util.HashSet;
import java.util.List;
import java.util.Set;
import java.util.regex.Matcher;
import java.util.regex.Pattern;
import rlc.front.lowering.LoweredClass;
import rlc.front.lowering.LoweredMethod;
import rlc.front.lowering.Program;
import rlc.front.output.Division;
import rlc.front.output.Skeleton;
import rlc.front.output.SkeletonFile;
import rlc.front.reports.Fault;
import rlc.front.reports.FaultReader;
import rlc.front.signatures.Signature;

/**
 * Lets {@code rlc} judge a lowered program. What the compiler or {@code rlc} does not take is left
 * out, with its reason, until the rest is judged: where a group of files is refused, its halves are
 * judged by themselves.
 */
public final class Checker {
  private static final Pattern REFUSAL =
      Pattern.compile("(?:.*/)?([^/:]+)(?::(\\d{1,9}):(\\d{1,9}))?: (\\d{1,9}) (\\w+)");
  private static final String BAD_ALIAS = "52";
  private static final int GROUP_FILES = 200;
  private static final int GROUP_BYTES = 12_000_000;

  private final Program program;
  private final List<LoweredClass> classes;
  private final Engine engine;
  private final Path kept;
  private final Division division;
  private Skeleton skeleton;

  /** Of the classes of a program; the lowered text is kept in a folder, if one is given. */
  public Checker(Program program, List<LoweredClass> classes, Engine engine, Path kept) {
    this.program = program;
    this.classes = classes;
    this.engine = engine;
    this.kept = kept;
    this.division = new Division(program, classes);
  }

  /** The faults of all bodies that are judged. */
  public List<Fault> check() throws IOException, RunException {
    write();
    while (leavesOut(TextCheck.errorsOf(skeleton))) {
      write();
    }
    List<Fault> faults = new ArrayList<>();
    Deque<List<String>> groups = new ArrayDeque<>(groups());
    while (!groups.isEmpty()) {
      List<String> group = groups.pop();
      Engine.Answer answer =
          engine.check(group.stream().map(skeleton::file).toList(), skeleton.stub().stubFile());
      if (answer.status() == 0 || answer.status() == 1) {
        faults.addAll(FaultReader.read(skeleton, answer.text()));
        continue;
      }
      refused(answer.text());
      write();
      if (group.size() > 1) {
        int half = group.size() / 2;
        groups.push(group.subList(half, group.size()));
        groups.push(group.subList(0, half));
      } else {
        groups.push(group);
      }
    }
    return faults;
  }

  /** Writes the program anew; what is left out never moves a body to another file. */
  private void write() throws IOException {
    skeleton = new Skeleton(program, division);
    if (kept != null) {
      Files.createDirectories(kept);
      for (SkeletonFile it : skeleton.files()) {
        Files.writeString(kept.resolve(it.name()), it.text().toString());
      }
      Files.writeString(kept.resolve("signatures.astub"), skeleton.stub().stubFile());
    }
  }

  private List<List<String>> groups() {
    List<List<String>> found = new ArrayList<>();
    List<String> group = new ArrayList<>();
    int bytes = 0;
    for (SkeletonFile it : skeleton.files()) {
      if (!group.isEmpty() && (group.size() == GROUP_FILES
          || bytes + it.text().length() > GROUP_BYTES)) {
        found.add(group);
        group = new ArrayList<>();
        bytes = 0;
      }
      group.add(it.name());
      bytes += it.text().length();
    }
    found.add(group);
    return found;
  }

  private boolean leavesOut(List<TextCheck.TextError> errors) throws RunException {
    boolean any = false;
    Set<Object> seen = new HashSet<>();
    for (TextCheck.TextError it : errors) {
      SkeletonFile file = skeleton.file(it.file());
      if (file != null && !seen.add(file.text().subjectAt(it.line()))) {
        continue;
      }
      String where = it.file() + ":" + it.line();
      any |= leaveOut(it.file(), it.line(),
          "the front's own text has an error at " + where + ": " + it.message());
    }
    if (!any && !errors.isEmpty()) {
      TextCheck.TextError first = errors.get(0);
      throw new RunException("the front's own text has an error outside of all bodies: "
          + first.file() + ":" + first.line() + ": "
          + first.message());
    }
    return any;
  }

  private void refused(String text) throws RunException {
    Matcher matcher = REFUSAL.matcher(text.lines().findFirst().orElse(""));
    if (matcher.matches() && matcher.group(2) == null && isLeftOut(matcher)) {
      return;
    }
    if (!matcher.matches() || matcher.group(2) == null) {
      throw new RunException("rlc refuses the lowered program: " + RunException.quote(text));
    }
    String reason = "rlc refuses it: " + matcher.group(4) + " " + matcher.group(5);
    if (matcher.group(1).equals(Engine.STUB) && matcher.group(4).equals(BAD_ALIAS)) {
      Signature signature = skeleton.stub().signatureAt(Integer.parseInt(matcher.group(2)));
      if (signature != null && signature.ownership() == Signature.Ownership.ALIAS) {
        program.signatures().dropAlias(signature);
        program.problems().add(signature.method(),
            "the result is not taken as one resource with an argument, since " + reason);
        return;
      }
    }
    if (!leaveOut(matcher.group(1), Integer.parseInt(matcher.group(2)), reason)) {
      throw new RunException("rlc refuses the lowered program: " + RunException.quote(text));
    }
  }

  /** Leaves out a file that is refused as a whole, since the text of a single body is too large. */
  private boolean isLeftOut(Matcher matcher) {
    int number = skeleton.numberOf(matcher.group(1));
    String reason = "rlc refuses its file: " + matcher.group(4) + " " + matcher.group(5);
    return number >= 0 && division.leaveOut(number, reason);
  }

  /** Leaves out what stands at a line; false where nothing does that is still there. */
  private boolean leaveOut(String file, int line, String reason) {
    SkeletonFile found = skeleton.file(file);
    Object subject = found == null ? null : found.text().subjectAt(line);
    if (subject instanceof LoweredMethod method && method.source() != null
        && !method.source().isLeftOut()) {
      method.source().leaveOut(reason);
      return true;
    }
    for (LoweredClass it : classes) {
      boolean here = subject == it || subject
          instanceof LoweredMethod method && it.methods().contains(method);
      if (here && it.isOwner() && !it.isLeftOut()) {
        it.leaveOut(reason + ", in the class of owning fields");
        program.problems().add(it.element(), reason);
        return true;
      }
    }
    return false;
  }
}
