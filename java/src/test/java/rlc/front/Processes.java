package rlc.front;

import java.io.IOException;
import java.nio.charset.StandardCharsets;
import java.nio.file.Files;
import java.nio.file.Path;
import java.util.ArrayList;
import java.util.List;
import java.util.Map;
import java.util.concurrent.TimeUnit;

/**
 * Runs the compiler with the built plugin, and other programs, as processes of their own: as builds
 * do.
 */
final class Processes {
  private static final long MOST_SECONDS = 300;

  /**
   * What a process answered.
   *
   * @param status its exit status
   * @param text what it wrote, errors among it
   */
  record Answer(int status, String text) {
    /** The lines that are a finding: a place in a source and the mark of the front. */
    List<String> findings() {
      return text.lines().filter(it -> it.contains(".java:") && it.contains("[rlc] ")
          && !it.contains(" is not checked: ")).toList();
    }

    /** The lines that name a body that is not checked. */
    List<String> notChecked() {
      return text.lines().filter(it -> it.contains(" is not checked: ")).toList();
    }

    /** Whether the line with the counts is there. */
    boolean hasSummary() {
      return text.lines().anyMatch(it -> it.matches(".*rlc: \\d+ bodies: .*"));
    }
  }

  private Processes() {}

  /** The folder of the built jar. */
  static Path built() {
    return Path.of(System.getenv("RLC_FRONT"));
  }

  /** The jar of the plugin. */
  static Path jar() {
    return built().resolve("rlc-java.jar");
  }

  /** Runs a program in a folder. */
  static Answer run(Path folder, List<String> words) throws IOException, InterruptedException {
    Path out = Files.createTempFile("process", ".out");
    try {
      ProcessBuilder builder = new ProcessBuilder(words)
          .directory(folder.toFile())
          .redirectErrorStream(true)
          .redirectInput(ProcessBuilder.Redirect.from(Path.of("/dev/null").toFile()))
          .redirectOutput(out.toFile());
      builder.environment().putAll(Map.of("LC_ALL", "C.UTF-8"));
      builder.environment().remove("MAKEFLAGS");
      Process process = builder.start();
      if (!process.waitFor(MOST_SECONDS, TimeUnit.SECONDS)) {
        process.destroyForcibly();
        throw new AssertionError("no end after " + MOST_SECONDS + " seconds: " + words);
      }
      return new Answer(process.exitValue(), Files.readString(out, StandardCharsets.UTF_8));
    } finally {
      Files.deleteIfExists(out);
    }
  }

  /** Runs {@code javac} with the plugin in a folder; {@code plugin} are the words of the plugin. */
  static Answer javac(Path folder, String plugin, String... words) throws IOException,
      InterruptedException {
    List<String> all = new ArrayList<>(List.of(
        Path.of(System.getProperty("java.home"), "bin", "javac").toString(), "-processorpath",
            jar().toString(),
        ("-Xplugin:Rlc rlc=" + Front.engine() + " " + plugin).strip(), "-d", "classes"));
    all.addAll(List.of(words));
    return run(folder, all);
  }

  /** Runs {@code javac} without it. */
  static Answer plainJavac(Path folder, String... words) throws IOException, InterruptedException {
    List<String> all = new ArrayList<>(
        List.of(Path.of(System.getProperty("java.home"), "bin", "javac").toString()));
    all.addAll(List.of(words));
    return run(folder, all);
  }

  /** Writes a file, with the folders that it stands in. */
  static Path write(Path folder, String name, String text) throws IOException {
    Path file = folder.resolve(name);
    Files.createDirectories(file.getParent());
    return Files.writeString(file, text);
  }
}
