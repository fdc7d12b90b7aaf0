package rlc.front;

import static org.junit.jupiter.api.Assertions.assertEquals;
import static org.junit.jupiter.api.Assertions.assertNotNull;
import static org.junit.jupiter.api.Assertions.assertTrue;
import static org.junit.jupiter.api.Assertions.fail;

import java.io.IOException;
import java.nio.file.Files;
import java.nio.file.Path;
import java.util.ArrayList;
import java.util.LinkedHashMap;
import java.util.List;
import java.util.Map;
import java.util.Random;
import java.util.function.Function;
import java.util.regex.Pattern;
import java.util.stream.Stream;
import javax.tools.Diagnostic;
import javax.tools.JavaFileObject;
import org.junit.jupiter.api.DynamicTest;
import org.junit.jupiter.api.Test;
import org.junit.jupiter.api.TestFactory;

/**
 * Leaks that are put into sources: each is reported, or its body is named. The sources are those of
 * {@code src/test/data}, and those of {@code clean} have no leak before.
 */
final class SeededLeaksTest {
  private static final Path CONSTRUCTS = Path.of("src/test/data/constructs");
  private static final Path CLEAN = Path.of("src/test/data/clean");
  private static final long SEED = 7;

  /** One leak before a random statement of each method: reported at its line. */
  @TestFactory
  List<DynamicTest> leaks() throws IOException {
    List<DynamicTest> tests = new ArrayList<>();
    for (Path folder : List.of(CONSTRUCTS, CLEAN)) {
      sources(folder).forEach((name, text) ->
          tests.add(DynamicTest.dynamicTest(name,
              () -> assertLeaks(name, new Seeds(name, text).leaks(new Random(SEED))))));
    }
    return tests;
  }

  private static void assertLeaks(String name, List<Seeds.Seed> seeds) {
    assertTrue(seeds.size() > 3, name + " has too few methods");
    Front front = Front.over(Map.of(name, seeds.get(0).text()));
    assertCompiled(front);
    List<String> lost = new ArrayList<>();
    for (Seeds.Seed it : seeds) {
      boolean reported = front.messages().stream().anyMatch(message -> isFinding(message)
          && message.getLineNumber() == it.line()
              && message.getMessage(null).contains("FileInputStream"));
      if (!reported && !isNamed(front, it.method())) {
        lost.add(name + ":" + it.line() + " in " + it.method());
      }
    }
    assertEquals(List.of(), lost, () -> front.messages().toString());
  }

  /** The sources without leaks have no report: else what follows would say nothing. */
  @Test
  void clean() throws IOException {
    Front front = Front.over(sources(CLEAN));
    assertCompiled(front);
    assertEquals(List.of(), front.places(), () -> front.messages().toString());
    assertEquals(List.of(), front.notChecked());
  }

  /** A {@code close()} taken out of a clean body is reported in it. */
  @TestFactory
  List<DynamicTest> withoutClose() throws IOException {
    return takenOut(Seeds::withoutClose);
  }

  /** Resources of a {@code try} that become variables are reported. */
  @TestFactory
  List<DynamicTest> withoutResources() throws IOException {
    return takenOut(Seeds::withoutResources);
  }

  private static List<DynamicTest> takenOut(Function<Seeds, List<Seeds.Seed>> change)
      throws IOException {
    List<DynamicTest> tests = new ArrayList<>();
    int all = 0;
    for (Map.Entry<String, String> source : sources(CLEAN).entrySet()) {
      String name = source.getKey();
      List<Seeds.Seed> seeds = change.apply(new Seeds(name, source.getValue()));
      all += seeds.size();
      if (!seeds.isEmpty()) {
        tests.add(DynamicTest.dynamicTest(name, () -> assertEachFound(name, seeds)));
      }
    }
    assertTrue(all >= 8, "too little was taken out: " + all);
    return tests;
  }

  /**
   * Each seed of a file is in a class of its own, so that one run judges them all: {@code Name},
   * {@code Name1}, {@code Name2} and so on.
   */
  private static void assertEachFound(String name, List<Seeds.Seed> seeds) {
    Map<String, String> changed = new LinkedHashMap<>();
    for (int i = 0; i < seeds.size(); i++) {
      String type = name.replace(".java", "");
      changed.put(type + i + ".java",
          seeds.get(i).text().replaceAll("\\b" + type + "\\b", type + i));
    }
    Front front = Front.over(changed);
    assertCompiled(front);
    List<String> lost = new ArrayList<>();
    int at = 0;
    for (String file : changed.keySet()) {
      Seeds.Seed seed = seeds.get(at++);
      boolean reported = front.messages().stream()
          .anyMatch(it -> isFinding(it) && it.getSource() != null
          && it.getSource().getName().endsWith(file) && it.getLineNumber() >= seed.line()
              && it.getLineNumber() <= seed.last());
      if (!reported && !isNamed(front, seed.method())) {
        lost.add(file + ": " + seed.method() + " at line " + seed.line());
      }
    }
    assertEquals(List.of(), lost, () -> front.messages().toString());
  }

  private static boolean isFinding(Diagnostic<? extends JavaFileObject> it) {
    return it.getMessage(null).startsWith("[rlc]")
        && !it.getMessage(null).contains(" is not checked: ");
  }

  private static boolean isNamed(Front front, String method) {
    // A constructor is named by its class.
    String word = method.equals("<init>")
        ? ".*\\b(\\w+)\\.\\1\\(.*" : ".*\\." + Pattern.quote(method) + "\\(.*";
    return front.notChecked().stream().anyMatch(it -> it.matches("(?s)" + word));
  }

  private static void assertCompiled(Front front) {
    for (Diagnostic<? extends JavaFileObject> it : front.messages()) {
      if (it.getKind() == Diagnostic.Kind.ERROR) {
        fail(it.toString());
      }
    }
    assertNotNull(front.summary());
  }

  private static Map<String, String> sources(Path folder) throws IOException {
    Map<String, String> found = new LinkedHashMap<>();
    try (Stream<Path> files = Files.list(folder)) {
      for (Path it : files.filter(file -> file.toString().endsWith(".java")).sorted().toList()) {
        found.put(it.getFileName().toString(), Files.readString(it));
      }
    }
    assertTrue(!found.isEmpty(), folder + " has no sources");
    return found;
  }
}
