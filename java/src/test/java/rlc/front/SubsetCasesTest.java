package rlc.front;

import static org.junit.jupiter.api.Assertions.assertEquals;
import static org.junit.jupiter.api.Assertions.assertTrue;

import com.sun.source.util.JavacTask;
import java.io.IOException;
import java.io.StringWriter;
import java.nio.file.Files;
import java.nio.file.Path;
import java.util.ArrayList;
import java.util.LinkedHashMap;
import java.util.List;
import java.util.Map;
import java.util.Set;
import java.util.TreeSet;
import java.util.regex.Matcher;
import java.util.regex.Pattern;
import java.util.stream.Stream;
import javax.tools.Diagnostic;
import javax.tools.DiagnosticCollector;
import javax.tools.JavaFileObject;
import javax.tools.ToolProvider;
import org.junit.jupiter.api.Test;

/**
 * The programs of the subset in the cases of the case runner, each in a package of its own: the
 * front finds the same obligations at the same places as {@code rlc check} of the program itself.
 * Programs that the compiler does not take are left out.
 */
final class SubsetCasesTest {
  private static final Path DATA = Path.of("../crates/case_runner/data");
  private static final int FEWEST = 150;

  /**
   * Programs about objects on which nothing must be called, which the lowered form does not follow:
   * a field with such content owns nothing, so that a store of what somebody must close is a leak
   * there; a promise of calls on such an object is reported. One of these has a leak, which is
   * reported at another place.
   */
  private static final Set<String> NOT_FOLLOWED = Set.of(
      "field of a type without an obligation stored outside a constructor",
      "field of a type without an obligation set to null outside a constructor",
      "light field stored behind the back of who stores into it",
      "promise forms");

  private static final Pattern HEAD = Pattern.compile("([^ :]+):(\\d+):\\d+: (\\S+) missing.*");
  private static final Pattern ORIGIN = Pattern.compile("  origin (\\S+) \\S+ (\\d+):\\d+");
  private static final String ANNOTATIONS =
      """
      import java.lang.annotation.*;
      @Target({ElementType.METHOD, ElementType.CONSTRUCTOR, ElementType.PARAMETER, ElementType.FIELD}) @interface Owning { }
      @Target({ElementType.METHOD, ElementType.CONSTRUCTOR, ElementType.PARAMETER, ElementType.FIELD}) @interface NotOwning { }
      @Target({ElementType.METHOD, ElementType.CONSTRUCTOR, ElementType.PARAMETER, ElementType.TYPE_USE})
      @interface MustCallAlias { }
      @interface InheritableMustCall { String[] value(); }
      @interface MustCall { String[] value(); }
      @interface CalledMethods { String[] value(); }
      @interface CreatesMustCallFor { String value() default "this"; }
      @interface EnsuresCalledMethods { String[] value(); String[] methods(); }
      @interface EnsuresCalledMethodsOnException { String[] value(); String[] methods(); }
      """;

  /** A program of a case, moved into a package, and the answer of the check. */
  private record Program(String name, String folder, Map<String, String> files, String answer) {}

  @Test
  void sameObligationsAtTheSamePlaces() throws IOException {
    List<Program> programs = read();
    int read = programs.size();
    takenByCompiler(programs);
    Map<String, String> sources = new LinkedHashMap<>();
    programs.forEach(it -> sources.putAll(it.files()));
    Set<String> found = new TreeSet<>();
    List<String> notChecked = new ArrayList<>();
    Front all = Front.over(sources, List.of("-proc:none", "-Xmaxwarns", "100000"));
    found.addAll(all.places());
    // Rule 55 asks for all resets and aliases of a program: those that others bring about go alone.
    for (Program it : programs) {
      if (all.filesNotChecked().stream().anyMatch(at -> at.startsWith(it.folder() + "/"))) {
        Front alone = Front.over(it.files(), List.of("-proc:none", "-Xmaxwarns", "100000"));
        found.removeIf(at -> at.startsWith(it.folder() + "/"));
        found.addAll(alone.places());
        notChecked.addAll(alone.notChecked());
      }
    }
    programs.removeIf(it -> NOT_FOLLOWED.stream().anyMatch(it.name()::endsWith));
    found.removeIf(at -> programs.stream().noneMatch(it -> at.startsWith(it.folder() + "/")));
    // Programs at the last level that is allowed have one more in their lowered form.
    notChecked.removeIf(it -> it.endsWith("61 TooDeep"));
    assertEquals(List.of(), notChecked);
    Set<String> wanted = new TreeSet<>();
    for (Program it : programs) {
      // Of some answers a case tells the status alone.
      boolean statusAlone = it.answer().startsWith("1") && it.answer().strip().length() == 1;
      wanted.addAll(statusAlone ? found.stream().filter(at -> at.startsWith(it.folder() + "/"))
          .toList() : wanted(it, found));
      assertTrue(!statusAlone || found.stream().anyMatch(at -> at.startsWith(it.folder() + "/")),
          it.name());
    }
    System.out.println("subset: " + programs.size() + " of " + read + " programs, " + wanted.size()
        + " places");
    Set<String> missing = new TreeSet<>(wanted);
    missing.removeAll(found);
    Set<String> more = new TreeSet<>(found);
    more.removeAll(wanted);
    assertEquals("", named(programs, missing), "not found");
    assertEquals("", named(programs, more), "found besides");
    assertTrue(programs.size() >= FEWEST, "only " + programs.size() + " programs");
  }

  private static String named(List<Program> programs, Set<String> places) {
    StringBuilder text = new StringBuilder();
    for (String place : places) {
      String name = programs.stream().filter(it -> place.startsWith(it.folder() + "/")).findFirst()
          .map(Program::name).orElse("?");
      text.append(place).append(" ").append(name).append('\n');
    }
    return text.toString();
  }

  /** The places of the reports of an answer, as the front tells them. */
  private static Set<String> wanted(Program program, Set<String> found) {
    Set<String> places = new TreeSet<>();
    String[] lines = program.answer().split("\n");
    for (int i = 0; i + 1 < lines.length; i++) {
      Matcher head = HEAD.matcher(lines[i]);
      Matcher origin = ORIGIN.matcher(lines[i + 1]);
      if (!head.matches() || !origin.matches()) {
        continue;
      }
      String file = program.folder() + "/" + head.group(1) + ":";
      boolean ofField = origin.group(1).equals("field") || origin.group(1).equals("this");
      switch (head.group(3)) {
        case "lost", "exit", "throw", "ctor.throw" -> places.add(file + origin.group(2));
        case "overwritten" -> places.add(file + (ofField ? head.group(2) : origin.group(2)));
        case "ensures" -> {
          if (!ofField) {
            places.add(file + origin.group(2));
          } else {
            // It is told at the method, which is the nearest finding above the end.
            int end = Integer.parseInt(head.group(2));
            found.stream()
                .filter(it -> it.startsWith(file))
                .filter(it -> Integer.parseInt(it.substring(file.length())) <= end)
                .max((a, b) -> Integer.parseInt(a.substring(file.length())) - Integer.parseInt(
                    b.substring(file.length())))
                .ifPresentOrElse(places::add, () -> places.add(file + "ensures before " + end));
          }
        }
        default -> places.add(file + head.group(2));
      }
    }
    return places;
  }

  private static List<Program> read() throws IOException {
    List<Program> found = new ArrayList<>();
    try (Stream<Path> files = Files.list(DATA)) {
      for (Path file : files.filter(it -> it.toString().endsWith(".cases")).sorted().toList()) {
        for (String text : Files.readString(file).split("(?m)^=== ")) {
          Program program = program(file.getFileName() + ": ", text, "c" + found.size());
          if (program != null) {
            found.add(program);
          }
        }
      }
    }
    return found;
  }

  private static Program program(String prefix, String text, String folder) {
    Map<String, String> files = new LinkedHashMap<>();
    String words = "";
    String answer = "";
    String[] sections = text.split("(?m)^--- ");
    for (int i = 1; i < sections.length; i++) {
      int line = sections[i].indexOf('\n');
      String head = line < 0 ? sections[i] : sections[i].substring(0, line);
      String body = line < 0 ? "" : sections[i].substring(line + 1);
      if (head.equals("words")) {
        words = body.strip();
      } else if (head.equals("answer")) {
        answer = body;
      } else if (head.startsWith("file ")) {
        files.put(folder + "/" + head.substring(5), "package " + folder + "; " + body);
      }
    }
    boolean usable = words.startsWith("check ")
        && !words.contains("--config")
        && (answer.startsWith("0") || answer.startsWith("1"))
        && files.values().stream()
            .noneMatch(it -> it.contains(" package ") || it.contains("\npackage "))
        && files.keySet().stream().allMatch(it -> it.endsWith(".java"));
    if (!usable) {
      return null;
    }
    files.put(folder + "/Annotations.java", "package " + folder + ";\n" + ANNOTATIONS);
    return new Program(prefix + sections[0].strip(), folder, files, answer);
  }

  /** Leaves out the programs in which the compiler finds errors, as a missing return. */
  private static void takenByCompiler(List<Program> programs) throws IOException {
    while (true) {
      Map<String, String> sources = new LinkedHashMap<>();
      programs.forEach(it -> sources.putAll(it.files()));
      DiagnosticCollector<JavaFileObject> diagnostics = new DiagnosticCollector<>();
      JavacTask task = (JavacTask) ToolProvider.getSystemJavaCompiler()
          .getTask(new StringWriter(), null, diagnostics,
          List.of("-proc:none", "-nowarn", "-Xmaxerrs", "100000"), null, Front.files(sources));
      task.analyze();
      Set<String> wrong = new TreeSet<>();
      for (Diagnostic<? extends JavaFileObject> it : diagnostics.getDiagnostics()) {
        if (it.getKind() == Diagnostic.Kind.ERROR && it.getSource() != null) {
          wrong.add(it.getSource().getName().replaceFirst("^/", "").replaceFirst("/.*", ""));
        }
      }
      if (wrong.isEmpty()) {
        return;
      }
      programs.removeIf(it -> wrong.contains(it.folder()));
    }
  }
}
