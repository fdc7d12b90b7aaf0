package rlc.front;

import static org.junit.jupiter.api.Assertions.assertEquals;
import static org.junit.jupiter.api.Assertions.assertNotEquals;
import static org.junit.jupiter.api.Assertions.assertTrue;

import java.io.IOException;
import java.nio.file.Files;
import java.nio.file.Path;
import java.util.ArrayList;
import java.util.List;
import java.util.stream.Stream;
import org.junit.jupiter.api.Test;
import org.junit.jupiter.api.io.TempDir;

/**
 * The plugin in builds of two modules, offline: {@code src/test/data/builds}. One module is a class
 * path of the other, and its annotations are read from its class files. Each source line with
 * {@code // leak} has a warning, and no other line.
 */
final class BuildsTest {
  private static final Path DATA = Path.of("src/test/data/builds").toAbsolutePath();

  @TempDir Path folder;

  @Test
  void maven() throws Exception {
    copy("modules");
    copy("maven");
    Processes.Answer answer = Processes.run(folder, maven("compile"));
    assertEquals(0, answer.status(), answer.text());
    assertFindings(answer);
    assertTrue(Files.exists(folder.resolve("app/target/classes/app/Main.class")), answer.text());
  }

  /** With {@code error}, what is found ends the build. */
  @Test
  void mavenEndsByErrors() throws Exception {
    copy("modules");
    copy("maven");
    List<String> words = maven("compile");
    words.add("-Drlc.options=error");
    Processes.Answer answer = Processes.run(folder, words);
    assertNotEquals(0, answer.status(), answer.text());
    assertTrue(answer.text().lines()
        .anyMatch(it -> it.startsWith("[ERROR]") && it.contains("Pipe.java:[")), answer.text());
  }

  @Test
  void make() throws Exception {
    copy("modules");
    copy("make");
    Processes.Answer answer = Processes.run(folder,
        List.of("make", "RLC_JAR=" + Processes.jar(), "RLC=" + Front.engine()));
    assertEquals(0, answer.status(), answer.text());
    assertFindings(answer);
  }

  private List<String> maven(String goal) throws IOException {
    Path settings = folder.resolve("settings.xml");
    Files.writeString(settings, Files.readString(DATA.resolve("maven/settings.xml"))
        .replace("LOCAL", folder.resolve("local").toString()));
    return new ArrayList<>(
        List.of("mvn", "-B", "-o", "-s", settings.toString(), "-Daether.offline.protocols=file",
        "-Drlc.jar=" + Processes.jar(), "-Drlc.engine=" + Front.engine(), goal));
  }

  private void copy(String part) throws IOException {
    Path from = DATA.resolve(part);
    try (Stream<Path> files = Files.walk(from)) {
      for (Path it : files.filter(Files::isRegularFile).toList()) {
        Path to = folder.resolve(from.relativize(it).toString());
        Files.createDirectories(to.getParent());
        Files.copy(it, to);
      }
    }
  }

  /**
   * The warnings as {@code FILE:LINE}: javac writes {@code FILE:LINE:}, Maven {@code
   * FILE:[LINE,COLUMN]}.
   */
  private void assertFindings(Processes.Answer answer) throws IOException {
    List<String> wanted = new ArrayList<>();
    try (Stream<Path> files = Files.walk(folder)) {
      for (Path it : files.filter(file -> file.toString().endsWith(".java")).toList()) {
        int line = 0;
        for (String text : Files.readAllLines(it)) {
          line++;
          if (text.contains("// leak")) {
            wanted.add(it.getFileName() + ":" + line);
          }
        }
      }
    }
    List<String> found = answer.findings().stream()
        .map(it -> it.replaceFirst(".*?(\\w+\\.java):\\[?(\\d+).*", "$1:$2"))
        .distinct()
        .sorted()
        .toList();
    assertEquals(wanted.stream().sorted().toList(), found, answer.text());
    assertEquals(List.of(), answer.notChecked(), answer.text());
  }
}
