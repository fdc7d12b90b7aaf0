package rlc.front;

import static org.junit.jupiter.api.Assertions.assertEquals;

import java.io.IOException;
import java.nio.file.Files;
import java.nio.file.Path;
import java.util.ArrayList;
import java.util.Collections;
import java.util.List;
import java.util.Map;
import java.util.stream.Stream;
import org.junit.jupiter.api.DynamicTest;
import org.junit.jupiter.api.TestFactory;

/**
 * Small methods for each construct, as data: files of {@code src/test/data/constructs}. A line with
 * {@code // leak} has a finding, no other line has one, and a line with {@code // not checked}
 * begins a body that is named.
 */
final class ConstructsTest {
  private static final Path DATA = Path.of("src/test/data/constructs");

  @TestFactory
  List<DynamicTest> constructs() throws IOException {
    List<DynamicTest> tests = new ArrayList<>();
    try (Stream<Path> files = Files.list(DATA)) {
      for (Path file : files.sorted().toList()) {
        tests.add(DynamicTest.dynamicTest(file.getFileName().toString(), () -> check(file)));
      }
    }
    return tests;
  }

  private static void check(Path file) throws IOException {
    String name = file.getFileName().toString();
    String text = Files.readString(file);
    List<String> wanted = new ArrayList<>();
    int line = 0;
    long notChecked = 0;
    for (String it : text.lines().toList()) {
      line++;
      if (it.contains("// leak")) {
        wanted.add(name + ":" + line);
      }
      notChecked += it.contains("// not checked") ? 1 : 0;
    }
    Front front = Front.over(Map.of(name, text));
    Collections.sort(wanted);
    assertEquals(String.join("\n", wanted), String.join("\n", front.places()));
    assertEquals(notChecked, front.notChecked().size(),
        () -> String.join("\n", front.notChecked()));
    assertEquals(front.summary().bodies(),
        front.summary().checked() + front.summary().notChecked() + front.summary().suppressed());
  }
}
