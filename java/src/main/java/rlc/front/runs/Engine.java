package rlc.front.runs;

import java.io.IOException;
import java.io.InputStream;
import java.nio.charset.StandardCharsets;
import java.nio.file.Files;
import java.nio.file.Path;
import java.nio.file.attribute.PosixFilePermissions;
import java.util.ArrayList;
import java.util.Comparator;
import java.util.List;
import java.util.concurrent.TimeUnit;
import java.util.stream.Stream;
import rlc.front.output.SkeletonFile;

/**
 * The program {@code rlc}: a given file, or the one in the jar, unpacked into a folder that only
 * this user can write and that goes when the run ends.
 */
public final class Engine implements AutoCloseable {
  /** The name of the file of signatures. */
  static final String STUB = "signatures.astub";

  private static final long MOST_BYTES = 256_000_000;
  private static final long WAIT_MILLISECONDS = 50;
  private static final String BUNDLED = "/rlc/engine/rlc";
  private static final String SETTINGS =
      "version = 2\n"
          + "ignored = [\"java.lang.RuntimeException\", \"java.lang.Error\"]\n"
          + "core = false\n";

  private final Path folder;
  private final Path program;

  /**
   * What {@code rlc} answered.
   *
   * @param status its exit status
   * @param text what it wrote
   */
  public record Answer(int status, String text) {}

  /** With a program, or null for the one in the jar. */
  public Engine(Path given) throws IOException, RunException {
    folder = Files.createTempDirectory("rlc-",
        PosixFilePermissions.asFileAttribute(PosixFilePermissions.fromString("rwx------")));
    if (given != null) {
      if (!Files.isRegularFile(given) || !Files.isExecutable(given)) {
        close();
        throw new RunException("there is no program " + given + " that could be run");
      }
      program = given.toAbsolutePath();
      return;
    }
    program = folder.resolve("rlc");
    try (InputStream bundled = Engine.class.getResourceAsStream(BUNDLED)) {
      if (bundled == null) {
        close();
        throw new RunException("the jar has no rlc in it; name one with rlc=PATH");
      }
      Files.copy(bundled, program);
    }
    Files.setPosixFilePermissions(program, PosixFilePermissions.fromString("r-x------"));
  }

  /** The folder of the files of a run. */
  public Path folder() {
    return folder;
  }

  /** Checks files against a stub. */
  public Answer check(List<SkeletonFile> files, String stub) throws IOException, RunException {
    Path settings = folder.resolve("settings.toml");
    Files.writeString(settings, SETTINGS);
    Path stubFile = folder.resolve(STUB);
    Files.writeString(stubFile, stub, StandardCharsets.US_ASCII);
    List<String> words = new ArrayList<>(
        List.of(program.toString(), "check", "--config", settings.toString()));
    for (SkeletonFile it : files) {
      Path path = folder.resolve(it.name());
      Files.writeString(path, it.text().toString(), StandardCharsets.US_ASCII);
      words.add(path.toString());
    }
    words.add(stubFile.toString());
    Path out = folder.resolve("answer");
    Path errors = folder.resolve("errors");
    Process process;
    try {
      process = new ProcessBuilder(words)
          .redirectInput(ProcessBuilder.Redirect.from(new java.io.File("/dev/null")))
          .redirectOutput(out.toFile())
          .redirectError(errors.toFile())
          .start();
    } catch (IOException e) {
      throw new RunException("rlc cannot be started: " + e.getMessage());
    }
    int status = waitFor(process, out, errors);
    String text = new String(Files.readAllBytes(out), StandardCharsets.UTF_8);
    String error = new String(Files.readAllBytes(errors), StandardCharsets.UTF_8).strip();
    refuse(status, text, error);
    return new Answer(status, text);
  }

  /** Waits for the end, and ends what writes more than any answer has. */
  private static int waitFor(Process process, Path out, Path errors)
      throws IOException, RunException {
    try {
      while (!process.waitFor(WAIT_MILLISECONDS, TimeUnit.MILLISECONDS)) {
        refuseMore(process, out, errors);
      }
      refuseMore(process, out, errors);
      return process.exitValue();
    } catch (InterruptedException e) {
      process.destroy();
      Thread.currentThread().interrupt();
      throw new RunException("the run of rlc was interrupted");
    }
  }

  private static void refuseMore(Process process, Path out, Path errors)
      throws IOException, RunException {
    if (Files.size(out) > MOST_BYTES || Files.size(errors) > MOST_BYTES) {
      process.destroyForcibly();
      throw new RunException("rlc wrote more than any answer has");
    }
  }

  /** Only the statuses 0, 1, 2 and 7 are answers about the program. */
  private static void refuse(int status, String text, String error) throws RunException {
    String more = error.isEmpty() ? "" : ": " + RunException.quote(error);
    switch (status) {
      case 0:
        if (!text.isEmpty()) {
          throw new RunException("rlc accepted the program, but wrote what no answer has");
        }
        return;
      case 1, 2, 7:
        if (text.isEmpty()) {
          throw new RunException("rlc ended with status " + status + " and without a word" + more);
        }
        return;
      case 3:
        throw new RunException(
            "rlc did not take the words that it was called with: "
                + "it is not the version of this front");
      case 4:
        throw new RunException("rlc could not read a file of the lowered program: "
            + RunException.quote(text));
      case 5:
        throw new RunException("rlc could not write its answer" + more);
      case 6:
        throw new RunException("rlc ran out of memory");
      default:
        throw new RunException(status > 128
            ? "rlc was ended by signal " + (status - 128) + more
            : "rlc ended with the unknown status " + status + more);
    }
  }

  @Override
  public void close() throws IOException {
    if (!Files.exists(folder)) {
      return;
    }
    try (Stream<Path> all = Files.walk(folder)) {
      for (Path path : all.sorted(Comparator.reverseOrder()).toList()) {
        Files.delete(path);
      }
    }
  }
}
